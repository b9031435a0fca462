// The rings of the chosen intersection: slots with greens and walks, edges that move, and the lights of the run.
"use strict";

const RING = 104;
const SLOT = 58;
const TOP = 26;

function ringsOf() {
  return known.facts && known.facts.chosen.rings;
}

function phaseOf(number) {
  return known.facts.chosen.phases.find((it) => it.phase === number) || {};
}

// The slots with an edge moved by some seconds.
function movedSlots(rings, edge, far) {
  if (!edge || !far) return rings.slots;
  const found = [];
  for (const ring of [1, 2]) {
    let at = 0;
    for (const slot of rings.slots.filter((it) => it.ring === ring)) {
      const length = slot.end - slot.start + 10 * far * (edge.by[slot.phase] || 0);
      found.push({ ...slot, start: at, end: at + length });
      at += length;
    }
  }
  return found;
}

function topOf(ring) {
  return TOP + (ring - 1) * RING;
}

// Draws the rings; `edge` is moved by `far` seconds while it is dragged.
function drawRings(edge, far) {
  const rings = ringsOf();
  hideDrawing("rings", !rings);
  by("no-rings").hidden = Boolean(rings);
  if (typeof d3 === "undefined" || !rings) return;
  const svg = d3.select("#rings");
  const width = Math.max(320, svg.node().clientWidth || 900);
  svg.attr("viewBox", `0 0 ${width} ${TOP + 2 * RING + 22}`);
  const x = d3.scaleLinear().domain([0, rings.cycle]).range([52, width - 30]);
  const slots = movedSlots(rings, edge, far);
  drawSlots(svg, slots, x);
  drawLights(svg, rings, x);
  drawZero(svg, rings, slots, x);
  drawEdges(svg, rings, slots, x);
  drawEnd(svg, rings, x);
  const axis = layer(svg, "axis");
  axis.attr("transform", `translate(0,${TOP + 2 * RING - 6})`);
  axis.call(d3.axisBottom(x).ticks(Math.floor(width / 60)).tickFormat((it) => it / 10));
  svg.selectAll("text.ring").data([1, 2]).join("text").attr("class", "ring").attr("x", 4)
    .attr("y", (it) => topOf(it) + SLOT / 2).text((it) => `Ring ${it}`);
}

function hideDrawing(id, hidden) {
  by(id).toggleAttribute("hidden", hidden);
  by(id).style.display = hidden ? "none" : "";
}

// The parts of a slot: [classes, start, length, y, height].
function partsOf(slot) {
  const phase = phaseOf(slot.phase);
  const length = slot.end - slot.start;
  if (phase.partner) return [["partner", 0, length, 0, SLOT]];
  const [yellow, red] = [10 * phase.yellow, 10 * phase.red_clear];
  const green = Math.max(0, length - yellow - red);
  const parts = [["slot", 0, green, 0, SLOT], ["yellow", green, Math.min(yellow, length), 0, SLOT],
    ["clear", green + yellow, Math.min(red, Math.max(0, length - green - yellow)), 0, SLOT]];
  if (phase.walk) {
    parts.push(["walk", 0, 10 * phase.walk, SLOT - 12, 10], ["flash", 10 * phase.walk, 10 * phase.ped_clear, SLOT - 12, 10]);
  }
  return parts;
}

function slotText(slot) {
  const phase = phaseOf(slot.phase);
  const what = phase.partner ? " placeholder" : slot.coordinated ? " coordinated" : slot.omitted ? " omitted" : "";
  return `${slot.phase}${what}: ${(slot.end - slot.start) / 10} s`;
}

function drawSlots(svg, slots, x) {
  const groups = layer(svg, "all-slots").selectAll("g.slots").data(slots, (it) => it.phase).join("g").attr("class", "slots")
    .attr("id", (it) => `slot-${it.phase}`).attr("transform", (it) => `translate(${x(it.start)},${topOf(it.ring)})`);
  const wide = (ticks) => Math.max(0, x(ticks) - x(0));
  groups.selectAll("rect.part").data(partsOf).join("rect").attr("class", (it) => `part ${it[0]}`)
    .attr("x", (it) => wide(it[1])).attr("width", (it) => wide(it[2])).attr("y", (it) => it[3])
    .attr("height", (it) => it[4]);
  const isShort = (it) => it.room !== null && it.room < 0;
  groups.selectAll("rect.frame").data((it) => [it]).join("rect").attr("class", (it) => `frame${isShort(it) ? " short" : ""}`)
    .attr("width", (it) => wide(it.end - it.start)).attr("height", SLOT);
  groups.selectAll("line.need").data((it) => (phaseOf(it.phase).partner ? [] : [it])).join("line")
    .attr("class", (it) => `need${isShort(it) ? " short" : ""}`).attr("x2", (it) => wide(phaseOf(it.phase).service))
    .attr("y1", SLOT - 16).attr("y2", SLOT - 16);
  const lines = (it) => [slotText(it), phaseOf(it.phase).name].map((text) => [text, wide(it.end - it.start)]);
  groups.selectAll("text").data(lines).join("text").attr("x", 5).attr("y", (it, at) => 14 + 14 * at)
    .text((it) => clippedText(it[0] || "", it[1]));
  const bodies = groups.selectAll("rect.body").data((it) => [it]).join("rect").attr("class", "body").attr("height", SLOT)
    .attr("width", (it) => wide(it.end - it.start));
  bodies.selectAll("title").data((it) => [it]).join("title").text((it) => `${slotText(it)} ${phaseOf(it.phase).name}`);
  draggable(bodies, (it) => ({ slot: it, x }), aimSwap, endSwap);
}

function clippedText(text, width) {
  const most = Math.floor((width - 8) / 6.4);
  return text.length <= most ? text : most < 2 ? "" : `${text.slice(0, most - 1)}…`;
}

// The pair of phases that change places if a slot is dragged over its neighbour.
function swapOf({ slot, x }, way) {
  const after = ringsOf().swaps.find((it) => it[way > 0 ? 0 : 1] === slot.phase);
  if (!after) return null;
  const other = ringsOf().slots.find((it) => it.phase === after[way > 0 ? 1 : 0]);
  return Math.abs(way) > (x(other.end) - x(other.start)) / 2 ? after : null;
}

function aimSwap(it, way) {
  const pair = swapOf(it, way);
  d3.select("#rings").selectAll("rect.frame").classed("aim", (slot) => Boolean(pair && pair.includes(slot.phase)));
}

function endSwap(it, way, isOver) {
  const pair = swapOf(it, way);
  aimSwap(it, 0);
  if (pair && !isOver) edit({ kind: "swap", phase: pair[0] }, true);
}

// The lights of one cycle of the run under each ring, from the start of its sequence.
function drawLights(svg, rings, x) {
  const { run } = known.shown;
  const row = known.facts.street.find((it) => it.number === known.facts.chosen.number) || {};
  const bars = [];
  if (run && run.lights && rings.zero !== undefined && row.cycle) {
    const first = row.offset - (row.shift || 0) - rings.zero;
    const start = run.start + modulo(first - run.start, row.cycle);
    for (const slot of rings.slots) {
      if (phaseOf(slot.phase).partner) continue;
      for (const [letter, from, to] of run.lights[slot.phase] || []) bars.push([slot.ring, letter, from - start, to - start, 0]);
      for (const [letter, from, to] of run.walks[slot.phase] || []) bars.push([slot.ring, letter, from - start, to - start, 1]);
    }
  }
  const kinds = { G: "green", Y: "yellow", C: "clear", W: "walk", F: "flash" };
  const seen = bars.filter((it) => it[3] > 0 && it[2] < rings.cycle && kinds[it[1]]);
  layer(svg, "lights").selectAll("rect").data(seen).join("rect")
    .attr("class", (it) => kinds[it[1]]).attr("x", (it) => x(Math.max(0, it[2])))
    .attr("width", (it) => x(Math.min(rings.cycle, it[3])) - x(Math.max(0, it[2])))
    .attr("y", (it) => topOf(it[0]) + SLOT + 4 + 10 * it[4]).attr("height", (it) => (it[4] ? 5 : 8));
}

// Local zero, from which the offset counts; the end of the shared green where the offset counts from there.
function drawZero(svg, rings, slots, x) {
  const pair = slots.filter((it) => it.coordinated);
  const zero = rings.zero === undefined ? null : Math.max(...pair.map((it) => it.start));
  const data = zero === null ? [] : [rings.end ? modulo(zero + rings.window, rings.cycle) : zero];
  const part = layer(svg, "zeros");
  part.selectAll("line.zero").data(data).join("line").attr("class", "zero").attr("x1", x).attr("x2", x)
    .attr("y1", 14).attr("y2", TOP + 2 * RING - 10);
  part.selectAll("text.offset").data(data).join("text").attr("class", "offset").attr("x", (it) => x(it) + 4).attr("y", 14)
    .text(`${rings.end ? "end of green" : "local zero"}: offset ${known.facts.chosen.offset} s`);
}

function endOf(slots, phase) {
  return slots.find((it) => it.phase === phase).end;
}

function drawEdges(svg, rings, slots, x) {
  const handles = layer(svg, "edges").selectAll("g.edge").data(rings.edges, (it) => it.phase).join((enter) => {
    const it = enter.append("g").attr("role", "slider").attr("tabindex", 0);
    it.append("rect").attr("class", "hit").attr("x", -10).attr("y", -8).attr("width", 20).attr("height", SLOT + 16);
    it.append("line").attr("y1", 0).attr("y2", SLOT);
    it.append("circle").attr("cy", SLOT / 2).attr("r", 6);
    return it;
  });
  const length = (it) => { const slot = slots.find((one) => one.phase === it.phase); return (slot.end - slot.start) / 10; };
  const planned = (it) => { const slot = rings.slots.find((one) => one.phase === it.phase); return (slot.end - slot.start) / 10; };
  handles.attr("class", (it) => `handle edge${it.barrier ? " barrier" : ""}`).attr("id", (it) => `edge-${it.phase}`)
    .attr("transform", (it) => `translate(${x(endOf(slots, it.phase))},${topOf(it.ring)})`)
    .attr("aria-label", (it) => `${it.barrier ? "Barrier" : "Edge"} after phase ${it.phase}: its split`)
    .attr("aria-valuemin", (it) => planned(it) + it.least).attr("aria-valuemax", (it) => planned(it) + it.most)
    .attr("aria-valuenow", length).attr("aria-valuetext", (it) => `${length(it)} s`);
  listen(handles, "keydown", keyEdge);
  draggable(handles, (it) => ({ edge: it, x, by: 0 }), moveEdge, endEdge);
}

// The seconds by which an edge moves, and the words if a rule stops it.
function stoppedEdge(edge, wanted) {
  if (!by("snap").checked) return [wanted, ""];
  const stopped = within(wanted, edge.least, edge.most);
  if (stopped === wanted) return [wanted, ""];
  const over = Math.abs(wanted - stopped);
  return [stopped, `stopped ${over} s short of that: ${wanted > stopped ? edge.right : edge.left}`];
}

function moveEdge(it, way) {
  const wanted = Math.round((way / (it.x(10) - it.x(0))));
  const [stopped, words] = stoppedEdge(it.edge, wanted);
  if (words) say(words);
  if (stopped === it.by) return;
  it.by = stopped;
  drawRings(it.edge, stopped);
  edit({ kind: "edge", phase: it.edge.phase, value: stopped }, false);
}

function endEdge(it, way, isOver) {
  if (it.by && !isOver) edit({ kind: "edge", phase: it.edge.phase, value: it.by }, true);
  else drawRings();
}

function keyEdge(event, edge) {
  const step = stepOf(event);
  if (!step) return;
  event.preventDefault();
  const [stopped, words] = stoppedEdge(edge, step);
  if (words) say(words);
  if (stopped) edit({ kind: "edge", phase: edge.phase, value: stopped }, true);
}

// The end of the cycle, which is dragged for another cycle.
function drawEnd(svg, rings, x) {
  const handle = layer(svg, "ends").selectAll("g.end").data([rings]).join((enter) => {
    const it = enter.append("g").attr("class", "handle end").attr("role", "slider").attr("tabindex", 0).attr("id", "cycle-handle");
    it.append("rect").attr("class", "hit").attr("x", -8).attr("y", 0).attr("width", 26).attr("height", 2 * RING - 20);
    it.append("line").attr("y1", 0).attr("y2", 2 * RING - 34);
    it.append("path").attr("d", "M4,30 L18,40 L4,50 Z");
    return it;
  });
  handle.attr("transform", `translate(${x(rings.cycle)},${TOP})`).attr("aria-label", "Cycle").attr("aria-valuemin", 1)
    .attr("aria-valuemax", 255).attr("aria-valuenow", rings.cycle / 10).attr("aria-valuetext", seconds(rings.cycle));
  listen(handle, "keydown", (event) => {
    const step = stepOf(event);
    if (!step) return;
    event.preventDefault();
    edit(cycleChange(within(rings.cycle / 10 + step, 1, 255)), true);
  });
  draggable(handle, () => ({ x, cycle: rings.cycle / 10, value: rings.cycle / 10 }), moveEnd, endEnd);
}

function cycleChange(value) {
  const everywhere = by("everywhere").checked;
  return { kind: "cycle", value, intersection: everywhere ? 0 : known.view.intersection };
}

function moveEnd(it, way) {
  const value = within(it.cycle + Math.round(way / (it.x(10) - it.x(0))), 1, 255);
  if (value === it.value) return;
  it.value = value;
  say(`cycle ${value} s`);
  d3.select("#cycle-handle").attr("transform", `translate(${it.x(10 * value)},${TOP})`);
  edit(cycleChange(value), false);
}

function endEnd(it, way, isOver) {
  if (it.value !== it.cycle && !isOver) edit(cycleChange(it.value), true);
  else drawRings();
}
