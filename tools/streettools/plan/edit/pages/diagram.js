// The time-space diagram: planned windows, greens of the run and bands, a row for each intersection.
"use strict";

const GAP = 34;
const TALLEST = 420;
const LETTER = 7.2;
const LABEL = 90;
const STEPS = [10, 15, 20, 30, 60, 120, 300, 600, 900];
const USUAL_TRAVEL = 20;

function travelOf(row) {
  return 10 * (row.travel === null || row.travel === undefined ? USUAL_TRAVEL : row.travel);
}

// How long after the first intersection of a way each is reached, in ticks, in the order of the rows.
function delaysOf(rows, way) {
  const found = [0];
  rows.slice(0, -1).forEach((row) => found.push(found[found.length - 1] + travelOf(row)));
  const last = found[found.length - 1];
  return way === 0 ? found : found.map((it) => last - it);
}

// The heights of the rows: the first at the foot, as far apart as the travel takes, but not too close.
function heightsOf(rows) {
  const whole = delaysOf(rows, 0)[rows.length - 1] || 1;
  const room = Math.max(TALLEST - GAP * (rows.length - 1), 0) * Math.min(1, (rows.length - 1) / 4);
  let height = 26;
  const found = [height];
  rows.slice(0, -1).forEach((row) => {
    height += GAP + (room * travelOf(row)) / whole;
    found.push(height);
  });
  return found.map((it) => height + 26 - it);
}

// The windows of a row in a span of time: for each cycle the start, and the ends of both ways.
function windowsOf(row, from, to) {
  if (!row.windows) return [];
  const zero = modulo(row.offset - row.shift, row.cycle);
  const found = [];
  for (let k = Math.floor((from - zero) / row.cycle) - 1; zero + k * row.cycle < to; k += 1) {
    const start = zero + k * row.cycle;
    if (start + Math.max(...row.windows) > from) found.push({ row, start, ends: row.windows.map((it) => start + it) });
  }
  return found;
}

// The spans that two lists of spans have in common.
function common(some, others) {
  const found = [];
  for (const [a, b] of some) {
    for (const [c, d] of others) {
      if (Math.max(a, c) < Math.min(b, d)) found.push([Math.max(a, c), Math.min(b, d)]);
    }
  }
  return found;
}

// The widest planned band of a way, as [start, width] in the cycle: for the picture until the program's band is known.
function plannedBand(rows, way) {
  if (rows.length < 2 || rows.some((it) => !it.windows || it.cycle !== rows[0].cycle)) return null;
  const delays = delaysOf(rows, way);
  const [cycle] = [rows[0].cycle];
  let spans = [[0, 2 * cycle]];
  rows.forEach((row, at) => {
    const moved = windowsOf(row, delays[at] - cycle, delays[at] + 3 * cycle);
    spans = common(spans, moved.map((it) => [it.start - delays[at], it.ends[way] - delays[at]]));
  });
  const widest = spans.reduce((most, it) => (it[1] - it[0] > (most ? most[1] - most[0] : 0) ? it : most), null);
  return widest ? [modulo(widest[0], cycle), widest[1] - widest[0]] : null;
}

// The spans of a band of the cycle in a span of time.
function repeated([start, width], cycle, from, to) {
  const found = [];
  for (let at = from - modulo(from - start, cycle); at < to; at += cycle) found.push([at, at + width]);
  return found;
}

function bandPoints([from, to], delays, heights, x) {
  const order = delays.map((it, at) => at).sort((a, b) => delays[a] - delays[b]);
  const points = (time) => order.map((at) => [x(time + delays[at]), heights[at]]);
  return [...points(from), ...points(to).reverse()].map((it) => it.map((n) => n.toFixed(1)).join(",")).join(" ");
}

// The bands that are drawn of a way: [classes, span].
function bandsOf(drawing, way, x) {
  const { rows, run, bands } = drawing;
  if (!by(way === 0 ? "outbound" : "inbound").checked || rows.length < 2) return [];
  const ran = ((run && run.bands) || [[], []])[way].map((span) => [way === 0 ? "out" : "in", span]);
  const widest = drawing.stale || !bands ? plannedBand(rows, way) : (bands.bands || [null, null])[way];
  if (!widest || !rows[0].cycle) return ran;
  const [from, to] = x.domain();
  const planned = repeated(widest, rows[0].cycle, from - rows[0].cycle, to);
  return [...ran, ...planned.map((span) => [`planned ${way === 0 ? "to" : "fro"}`, span])];
}

function spanOf(drawing) {
  const { run } = drawing;
  return run && run.start !== undefined ? [run.start, run.end] : [10 * known.view.time, 10 * known.view.time + 600 * known.view.minutes];
}

// Draws a diagram: rows, the run and the bands of a version; `edits` where offsets can be dragged.
function drawDiagram(id, drawing, edits) {
  if (typeof d3 === "undefined" || !drawing.rows || !drawing.rows.length) return;
  const svg = d3.select(`#${id}`);
  const { rows } = drawing;
  const heights = heightsOf(rows);
  const width = Math.max(320, svg.node().clientWidth || 900);
  const height = heights[0] + 56;
  svg.attr("viewBox", `0 0 ${width} ${height}`).classed("stale", Boolean(drawing.stale)).classed("still", !edits);
  const left = 16 + LETTER * Math.max(...rows.map((it) => it.name.length));
  const x = d3.scaleLinear().domain(spanOf(drawing)).range([Math.min(left, 0.4 * width), width - 16]);
  clipped(svg, id, x, height);
  ["windows", "greens", "bands", "offsets"].forEach((name) => layer(svg, name));
  drawNames(svg, rows, heights, edits);
  drawWindows(svg, id, rows, heights, x, edits);
  drawGreens(svg, id, drawing, heights, x);
  const delays = [0, 1].map((way) => delaysOf(rows, way));
  const polygons = [0, 1].flatMap((way) => bandsOf(drawing, way, x).map((it) => [...it, delays[way]]));
  layer(svg, "bands").attr("clip-path", `url(#${id}-clip)`)
    .selectAll("polygon").data(polygons).join("polygon").attr("class", (it) => it[0])
    .attr("points", (it) => bandPoints(it[1], it[2], heights, x));
  const axis = layer(svg, "axis");
  axis.attr("transform", `translate(0,${height - 26})`);
  axis.call(d3.axisBottom(x).tickValues(momentsIn(x.domain(), width / LABEL)).tickFormat(clock));
}

// Whole times of day in a span, at most so many.
function momentsIn([from, to], most) {
  const step = 10 * (STEPS.find((it) => (to - from) / (10 * it) <= most) || 3600);
  return d3.range(Math.ceil(from / step) * step, to, step);
}

function clipped(svg, id, x, height) {
  svg.selectAll("defs").data([0]).join((enter) => {
    const defs = enter.append("defs");
    defs.append("clipPath").attr("id", `${id}-clip`).append("rect");
    return defs;
  });
  svg.select("clipPath rect").attr("x", x.range()[0]).attr("y", 0).attr("width", x.range()[1] - x.range()[0])
    .attr("height", height - 26);
}

function drawNames(svg, rows, heights, edits) {
  const chosen = known.view.intersection;
  const names = svg.selectAll("text.name").data(rows).join("text");
  names.attr("class", (it) => `name${it.number === chosen ? " chosen" : ""}`).attr("x", 6)
    .attr("y", (it, at) => heights[at] + 4).text((it) => it.name + marksOf(it.number));
  if (edits) {
    names.attr("role", "button").attr("tabindex", 0).attr("aria-label", (it) => `Choose ${it.name}`);
    listen(names, "click", (event, it) => choose(it.number));
    listen(names, "keydown", (event, it) => { if (event.key === "Enter" || event.key === " ") choose(it.number); });
  }
}

// A sign after the name of an intersection that breaks a rule.
function marksOf(number) {
  return known.checks.some((it) => it.number === number && it.level === "error") ? " ⚠" : "";
}

function drawWindows(svg, id, rows, heights, x, edits) {
  const [from, to] = x.domain();
  const all = rows.flatMap((row, at) => windowsOf(row, from, to).map((it) => ({ ...it, at })));
  const rects = all.flatMap((it) => [0, 1].map((way) => ({ ...it, way })));
  const group = layer(svg, "windows").attr("clip-path", `url(#${id}-clip)`);
  group.selectAll("line.road").data(rows).join("line").attr("class", "road").attr("x1", x.range()[0])
    .attr("x2", x.range()[1]).attr("y1", (it, at) => heights[at]).attr("y2", (it, at) => heights[at]);
  const drawn = group.selectAll("rect.plan").data(rects).join("rect").attr("class", "plan")
    .attr("x", (it) => x(it.start)).attr("width", (it) => Math.max(1, x(it.ends[it.way]) - x(it.start)))
    .attr("y", (it) => heights[it.at] + (it.way ? 1 : -12)).attr("height", 11);
  if (!edits) return;
  const offsets = [(it) => edits.begin(it.row, x), edits.move, edits.end];
  draggable(drawn, ...offsets);
  const firsts = rows.map((row, at) => ({ row, at, first: all.find((it) => it.at === at && it.start >= from) }))
    .filter((it) => it.first);
  const handles = layer(svg, "offsets").selectAll("g.offset").data(firsts, (it) => it.row.number).join((enter) => {
    const it = enter.append("g").attr("class", "handle offset").attr("role", "slider").attr("tabindex", 0);
    it.append("rect").attr("class", "hit").attr("x", -14).attr("y", -22).attr("width", 28).attr("height", 28);
    it.append("path").attr("d", "M-7,-16 L7,-16 L0,-4 Z");
    return it;
  });
  handles.attr("transform", (it) => `translate(${x(it.first.start)},${heights[it.at]})`)
    .attr("id", (it) => `offset-handle-${it.row.number}`)
    .attr("aria-label", (it) => `Offset of ${it.row.name}`).attr("aria-valuemin", 0)
    .attr("aria-valuemax", (it) => it.row.cycle / 10 - 1).attr("aria-valuenow", (it) => it.row.offset / 10)
    .attr("aria-valuetext", (it) => seconds(it.row.offset));
  listen(handles, "keydown", (event, it) => edits.key(event, it.row));
  draggable(handles, ...[(it) => edits.begin(it.row, x), edits.move, edits.end]);
}

function drawGreens(svg, id, drawing, heights, x) {
  const { run, rows } = drawing;
  const greens = (run && run.greens) || [[], []];
  const place = (number) => rows.findIndex((it) => it.number === number);
  const bars = [0, 1].flatMap((way) => greens[way].flatMap((spans, at) => spans.map((span) => [way, place(run.numbers[at]), span])));
  layer(svg, "greens").attr("clip-path", `url(#${id}-clip)`)
    .selectAll("rect").data(bars.filter((it) => it[1] >= 0)).join("rect").attr("class", "green")
    .attr("x", (it) => x(it[2][0])).attr("width", (it) => Math.max(1, x(it[2][1]) - x(it[2][0])))
    .attr("y", (it) => heights[it[1]] + (it[0] ? 3 : -9)).attr("height", 6);
}
