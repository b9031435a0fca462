// The drawing of an intersection: approaches, lanes, crosswalks, detectors, and heads with their letters. A phase has
// the place that its name says, such as "Oak Ave northbound" or "NBL", else that of the usual numbering.
"use strict";

const TURNED = { EB: 0, SB: 90, WB: 180, NB: 270 }; // degrees by which the eastbound approach is turned
const USUAL = { 1: "WBL", 2: "EBT", 3: "SBL", 4: "NBT", 5: "EBL", 6: "WBT", 7: "NBL", 8: "SBT" };
const WAYS = { EB: "eastbound", SB: "southbound", WB: "westbound", NB: "northbound" };
const LANES = { L: 215, T: 243 }; // the middle of each lane of the eastbound approach
const ROUND = Object.keys(TURNED); // the approaches clockwise, from the west

// The movement of a phase by its name and number, such as "EBT"; nothing where neither says it.
function movementOf(p, name) {
  const way = Object.keys(WAYS).find((it) => new RegExp(`\\b(${WAYS[it]}|${it}[LTR]?)\\b`, "i").test(name));
  const isLeft = /\bleft\b|\b[ENSW]BL\b/i.test(name);
  if (way) return way + (isLeft ? "L" : "T");
  if (!USUAL[p]) return undefined;
  return isLeft ? `${USUAL[p].slice(0, 2)}L` : USUAL[p];
}

// The phase of each movement of a cabinet; of two with the same place the first is drawn.
function movementsOf(facts, names, placeholders) {
  const found = {};
  for (const p of facts.phases) {
    const it = placeholders.includes(p) ? undefined : movementOf(p, names[p] || "");
    if (it && !found[it]) found[it] = p;
  }
  return found;
}

function drawn(kind, given, text) {
  const it = document.createElementNS("http://www.w3.org/2000/svg", kind);
  for (const [name, value] of Object.entries(given)) it.setAttribute(name, value);
  if (text !== undefined) it.textContent = text;
  return it;
}

// A text that stays upright in an approach that is turned.
function upright(x, y, turned, given, text) {
  const place = { x, y, transform: `rotate(${-turned} ${x} ${y})`, "text-anchor": "middle", "dominant-baseline": "central" };
  return drawn("text", { ...place, ...given }, text);
}

// A head: a circle with the letter of what it shows.
function head(x, y, turned, id, radius) {
  const group = drawn("g", { id, class: "head" });
  group.append(drawn("circle", { cx: x, cy: y, r: radius }), upright(x, y, turned, {}, ""), drawn("title", {}));
  return group;
}

// The approach on whose leg vehicles of an approach leave, if they turn left (1), drive through (2), or turn right (3).
function exitOf(way, turn) {
  return ROUND[(ROUND.indexOf(way) + turn) % 4];
}

// The path of an arrow with the turns that a lane allows.
function arrow(y, turns) {
  const parts = {
    1: `M52 ${y}q8 0 8 -8v-8m-6 8 6 -8 6 8`,
    2: `M52 ${y}H76m-8 -6 8 6 -8 6`,
    3: `M52 ${y}q8 0 8 8v8m-6 -8 6 8 6 -8`,
  };
  return `M34 ${y}H52${turns.map((it) => parts[it]).join("")}`;
}

function detector(p, y, title) {
  const it = drawn("g", { id: `drawn-hold-${p}`, class: "detector", role: "button", tabindex: 0, "aria-pressed": "false" });
  it.setAttribute("aria-label", `hold the detector of phase ${p}`);
  it.append(drawn("rect", { x: 82, y: y - 9, width: 28, height: 18, rx: 3 }), drawn("title", {}, title));
  const hold = () => toggle("veh", p);
  it.addEventListener("click", hold);
  it.addEventListener("keydown", (event) => {
    if (event.key !== "Enter" && event.key !== " ") return;
    event.preventDefault();
    hold();
  });
  return it;
}

function lane(p, y, turned, turns, title) {
  const group = drawn("g", { class: "lane" });
  group.append(
    drawn("path", { id: `arrow-${p}`, class: "arrow", d: arrow(y, turns) }),
    upright(20, y, turned, { id: `number-${p}`, class: "number" }, p),
    detector(p, y, title),
    head(151, y, turned, `head-${p}`, 12),
  );
  return group;
}

function road() {
  const group = drawn("g", {});
  group.append(drawn("rect", { class: "road", x: 0, y: 140, width: 140, height: 120 }));
  group.append(drawn("line", { class: "middle", x1: 0, x2: 116, y1: 200, y2: 200 }));
  return group;
}

// The lanes of an approach. Vehicles may leave on each leg that is there; a lane for left turns takes these.
function approach(way, movements, ways, titles) {
  const turned = TURNED[way];
  const group = drawn("g", { transform: `rotate(${turned} 200 200)` });
  group.append(drawn("line", { class: "stop", x1: 118, x2: 118, y1: 202, y2: 258 }));
  const [left, through] = [movements[`${way}L`], movements[`${way}T`]];
  const turns = [1, 2, 3].filter((it) => ways.includes(exitOf(way, it)) && !(left && it === 1));
  if (left) group.append(lane(left, LANES.L, turned, [1], titles(left)));
  if (through) group.append(lane(through, left ? LANES.T : 230, turned, turns, titles(through)));
  return group;
}

// A crosswalk that people of a phase use, parallel to its vehicles; it is turned with them.
function crosswalk(p, way) {
  const turned = TURNED[way];
  const group = drawn("g", { transform: `rotate(${turned} 200 200)` });
  group.append(drawn("line", { class: "crosswalk", x1: 144, x2: 256, y1: 270, y2: 270 }), head(200, 270, turned, `walk-${p}`, 9));
  return group;
}

// Draws an intersection into an SVG; returns the phases that have no place in it.
function drawIntersection(svg, facts, names, placeholders) {
  const movements = movementsOf(facts, names, placeholders);
  const ways = Object.keys(WAYS).filter((it) => movements[`${it}L`] || movements[`${it}T`]);
  const titles = (p) => `phase ${p} ${names[p] || ""}`.trim();
  const roads = ways.map((it) => {
    const group = road();
    group.setAttribute("transform", `rotate(${TURNED[it]} 200 200)`);
    return group;
  });
  svg.replaceChildren(...roads, drawn("rect", { class: "road", x: 140, y: 140, width: 120, height: 120 }));
  for (const it of ways) {
    const p = movements[`${it}T`];
    if (p && facts.walks.includes(p) && ways.includes(exitOf(it, 3))) svg.append(crosswalk(p, it));
  }
  svg.append(...ways.map((it) => approach(it, movements, ways, titles)));
  const placed = Object.values(movements);
  return facts.phases.filter((p) => !placed.includes(p) && !placeholders.includes(p));
}

function showHead(id, letter, words) {
  const it = by(id);
  if (!it || it.dataset.letter === letter) return;
  it.dataset.letter = letter;
  it.setAttribute("class", `head ${letter}`);
  put(it.querySelector("text"), letter);
  put(it.querySelector("title"), words);
}

// Shows a phase in the drawing: its head, its arrow, its crosswalk, its detector, and whether it is called.
function showDrawn(p, shown, isHeld, isCalled) {
  const [letter, walk] = [shown.vehicles[p - 1], shown.pedestrians[p - 1]];
  showHead(`head-${p}`, letter, `phase ${p} ${COLOURS[letter]}`);
  showHead(`walk-${p}`, walk, `phase ${p} ${SIGNALS[walk]}`);
  const [lit, held] = [by(`arrow-${p}`), by(`drawn-hold-${p}`)];
  if (lit) lit.setAttribute("class", `arrow ${letter}`);
  if (!held) return;
  held.setAttribute("aria-pressed", String(isHeld));
  held.setAttribute("class", isHeld ? "detector on" : "detector");
  by(`number-${p}`).setAttribute("class", isCalled ? "number called" : "number");
}
