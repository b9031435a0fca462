// The panel's page: it keeps what the street tells it, draws it, and asks for what is switched.
"use strict";

const COLOURS = { G: "green", Y: "yellow change", C: "red clearance", R: "red" };
const SIGNALS = { W: "walk", F: "flashing don't walk", D: "don't walk" };
const STAGES = { e: "on the way", t: "track clearance", d: "dwell", x: "exit" };
const KEPT = 200;
const known = { facts: [], names: {}, cabinets: {}, now: 0, speed: 1, inputs: new Set(), rates: {}, greens: {}, details: {},
  line: { rules: 0, on: true, hanging: [] }, alarms: [], alarmed: {} };
const by = (id) => document.getElementById(id);
let socket = null;
let viewed = 0;
let resumed = 1;
let cards = [];

function made(kind, classes, text) {
  const it = document.createElement(kind);
  if (classes) it.className = classes;
  if (text !== undefined) it.textContent = text;
  return it;
}

function put(element, text) {
  if (element.textContent !== text) element.textContent = text;
}

function seconds(ticks) {
  return (ticks / 10).toFixed(1) + " s";
}

function clock(ticks) {
  const all = Math.floor(ticks / 10);
  const parts = [Math.floor(all / 3600), Math.floor(all / 60) % 60, all % 60];
  return parts.map((it) => String(it).padStart(2, "0")).join(":") + "." + (ticks % 10);
}

// The time of a tick: of the day, if the street has a name and a clock, else since the start.
function moment(tick) {
  return clock(((known.names.start || 0) + tick) % 864000);
}

function modeText(mode) {
  const number = (mode.match(/\d+/) || [""])[0];
  const words = { S: "start-up", F: "free", X: "flash", E: "on the way to flash" };
  Object.assign(words, { K: `seeks pattern ${number}`, C: `pattern ${number}` });
  return mode[0] === "P" ? `preempt ${number}, ${STAGES[mode.slice(-1)]}` : words[mode[0]];
}

function ask(order) {
  if (socket && socket.readyState === WebSocket.OPEN) socket.send(JSON.stringify(order));
}

// what the street tells

function shownOf(row) {
  const [tick, vehicles, pedestrians, mode, counter, target, version, since, pedSince, isFailing] = row;
  return { tick, vehicles, pedestrians, mode, counter, target, version, since, pedSince, isFailing };
}

function take(told) {
  if (told.facts) {
    known.facts = told.facts;
    known.names = { ...told.names, start: told.start };
    known.alarms = told.alarms;
    build();
  }
  if (told.laid) {
    known.facts[told.laid.number - 1] = told.laid;
    cards[told.laid.number - 1].dataset.state = "";
    if (told.laid.number === viewed) buildCabinet();
  }
  if (told.all) clearLists();
  if (told.now !== undefined) known.now = told.now;
  for (const [number, row] of Object.entries(told.cabinets || {})) known.cabinets[number] = shownOf(row);
  if (told.speed !== undefined) {
    known.speed = told.speed;
    known.inputs = new Set(told.inputs);
    known.rates = told.rates;
    known.line = told.line;
    known.alarmed = told.alarmed;
    showTime(told);
  }
  if (told.details) known.details = told.details;
  if (told.greens) {
    known.greens = told.greens;
    drawDiagram(known);
  }
  (told.notes || []).forEach(addNote);
  (told.messages || []).forEach(addMessage);
  if (told.all || (told.messages || []).length) countMessages();
  show();
}

function clearLists() {
  by("notes").replaceChildren();
  by("messages").tBodies[0].replaceChildren();
}

function addNote([tick, text]) {
  const list = by("notes");
  list.prepend(made("li", "", `${moment(tick)} ${text}`));
  while (list.children.length > KEPT) list.lastChild.remove();
}

function addMessage([tick, cabinet, asked, answered]) {
  const body = by("messages").tBodies[0];
  const row = made("tr");
  for (const text of [moment(tick), cabinet, asked, answered]) row.append(made("td", "", text));
  row.hidden = !isWanted(row);
  body.prepend(row);
  while (body.children.length > KEPT) body.lastChild.remove();
}

// Tells whether a message is one of those that the fields above the list ask for.
function isWanted(row) {
  const [, cabinet, asked, answered] = Array.from(row.cells, (it) => it.textContent);
  const [number, kind] = [by("message-cabinet").value, by("message-kind").value];
  const text = by("message-text").value.trim().toLowerCase();
  if (number && cabinet !== number) return false;
  if (kind === "fault" ? !/^silence$|^\w+ at \d+$/.test(answered) : kind && asked.split(" ")[0] !== kind) return false;
  return !text || `${asked} ${answered}`.toLowerCase().includes(text);
}

function filterMessages() {
  for (const row of by("messages").tBodies[0].children) row.hidden = !isWanted(row);
  countMessages();
}

function countMessages() {
  const rows = [...by("messages").tBodies[0].children];
  put(by("message-count"), `${rows.filter((it) => !it.hidden).length} of ${rows.length}`);
}

function buildMessageFilter() {
  const chosen = by("message-cabinet").value;
  const options = known.facts.map((it) => new Option(cabinetTitle(it.number), it.number));
  by("message-cabinet").replaceChildren(new Option("all", ""), ...options);
  by("message-cabinet").value = chosen;
}

function showTime(told) {
  const stands = known.speed === 0;
  by("pause").setAttribute("aria-pressed", String(stands));
  put(by("pause"), stands ? "Go on" : "Pause");
  by("bad-line").hidden = known.line.rules === 0;
  press("bad-line", known.line.on);
  if (!stands) {
    resumed = known.speed;
    if (document.activeElement !== by("speed")) showSpeed(String(known.speed));
  }
  if (told.ending) showEnding(told.ending);
}

function showSpeed(text) {
  const select = by("speed");
  if (![...select.options].some((it) => it.value === text)) select.append(new Option(text, text));
  select.value = text;
}

function showEnding(text) {
  by("ending").hidden = false;
  put(by("ending"), text);
}

// names

function cabinetName(number) {
  return (known.names.cabinets || [])[number - 1] || `Cabinet ${number}`;
}

// The name of a cabinet with its number, for titles.
function cabinetTitle(number) {
  const name = (known.names.cabinets || [])[number - 1];
  return name ? `${name} (cabinet ${number})` : `Cabinet ${number}`;
}

function phaseName(p) {
  if (((known.names.placeholders || [])[viewed - 1] || []).includes(p)) return "placeholder: only the rings need it";
  return ((known.names.phases || [])[viewed - 1] || {})[p] || "";
}

function preemptTitle(n) {
  const name = ((known.names.preempts || [])[viewed - 1] || {})[n];
  return name ? `Preempt ${n}: ${name}` : `Preempt ${n}`;
}

// The seconds from a cabinet, by its place from 0, to the next.
function travelOf(at) {
  const it = by(`travel-${at + 1}`);
  return it ? Math.max(0, Number(it.value) || 0) : 0;
}

function travelInput(number) {
  const label = made("label", "", `${cabinetName(number)} to ${cabinetName(number + 1)} (s) `);
  const it = made("input");
  const told = (known.names.travel || [])[number - 1];
  const value = told === undefined || told === null ? 20 : told;
  Object.assign(it, { type: "number", min: 0, max: 600, step: "any", value, id: `travel-${number}` });
  it.addEventListener("change", () => drawDiagram(known));
  label.append(it);
  return label;
}

function buildTravel() {
  by("travel").replaceChildren(...known.facts.slice(1).map((facts, at) => travelInput(at + 1)));
}

// the street

function lamp(letter, name, label) {
  const it = made("span", `lamp ${letter}`, `${name}${letter}`);
  it.setAttribute("aria-label", label);
  return it;
}

function buildCards() {
  cards = known.facts.map((facts) => {
    const card = made("a", "card");
    card.href = `#${facts.number}`;
    card.append(made("strong", "", cabinetTitle(facts.number)), made("span", "mode"), made("div", "bad"));
    card.append(made("div", "lamps"));
    card.querySelector(".mode").before(" ");
    return card;
  });
  by("cards").replaceChildren(...cards);
  delete by("cards").dataset.order;
}

// What is wrong with a cabinet, in words; nothing where nothing is.
function badOf(number) {
  const isFailing = known.cabinets[number] && known.cabinets[number].isFailing;
  const words = [isFailing ? "fails: it doesn't answer the master" : "", known.line.hanging.includes(number) ? "hangs" : ""];
  return words.filter(Boolean).join(", ");
}

// Tells whether a cabinet is one of those that the fields above the cards ask for.
function isCardWanted(number) {
  const [kind, text] = [by("card-kind").value, by("card-text").value.trim().toLowerCase()];
  const mode = known.cabinets[number] ? known.cabinets[number].mode[0] : "S";
  if (kind && !(kind === "failing" ? badOf(number) : kind.includes(mode))) return false;
  return !text || String(number) === text || cabinetName(number).toLowerCase().includes(text);
}

const ORDERS = {
  number: () => "",
  name: (number) => cabinetName(number),
  mode: (number) => (known.cabinets[number] ? modeText(known.cabinets[number].mode) : ""),
  failing: (number) => (badOf(number) ? "0" : "1"),
};

// Shows the cards that are asked for, in the order that is asked for.
function arrangeCards() {
  const rank = ORDERS[by("card-order").value];
  const numbers = known.facts.map((it) => it.number);
  numbers.sort((one, other) => rank(one).localeCompare(rank(other), undefined, { numeric: true }) || one - other);
  const wanted = numbers.filter(isCardWanted);
  if (by("cards").dataset.order !== numbers.join()) {
    by("cards").dataset.order = numbers.join();
    const focused = document.activeElement;
    by("cards").replaceChildren(...numbers.map((it) => cards[it - 1]));
    if (cards.includes(focused)) focused.focus();
  }
  numbers.forEach((it) => { cards[it - 1].hidden = !wanted.includes(it); });
  put(by("card-count"), wanted.length < numbers.length ? `${wanted.length} of ${numbers.length}` : "");
}

function showCard(facts) {
  const shown = known.cabinets[facts.number];
  const card = cards[facts.number - 1];
  const bad = badOf(facts.number);
  const state = shown ? `${shown.tick} ${bad}` : "";
  if (!shown || card.dataset.state === state) return;
  card.dataset.state = state;
  card.className = bad ? "card bad" : "card";
  put(card.querySelector(".bad"), bad);
  put(card.querySelector(".mode"), modeText(shown.mode));
  const lamps = facts.phases.map((p) => lamp(shown.vehicles[p - 1], p, `phase ${p} ${COLOURS[shown.vehicles[p - 1]]}`));
  card.querySelector(".lamps").replaceChildren(...lamps);
}

// one cabinet

function phaseBox(p) {
  const box = made("div", "phase");
  box.id = `box-${p}`;
  box.append(made("b", "", `Phase ${p}`), made("span", "called", phaseName(p)), made("span", "interval"));
  box.append(made("span", "split"));
  return box;
}

// The pattern that runs or is sought, laid out; nothing where there is none.
function patternOf(facts, mode) {
  return ["K", "C"].includes(mode[0]) ? facts.patterns[mode.slice(1)] : undefined;
}

function buildRings(order, facts) {
  const rings = order.map((phases, at) => {
    const ring = made("div", "ring");
    ring.append(made("span", "name", `Ring ${at + 1}`));
    const sides = [];
    for (const p of phases) {
      const side = facts.sides.findIndex((it) => it.includes(p));
      if (!sides.length || sides[sides.length - 1].side !== side) {
        sides.push({ side, element: made("div", "side") });
      }
      sides[sides.length - 1].element.append(phaseBox(p));
    }
    ring.append(...sides.map((it) => it.element));
    return ring;
  });
  by("rings").replaceChildren(...rings);
}

// Draws the rings where there are others than before: another sequence, other phases, other splits.
function layRings(shown) {
  const facts = known.facts[viewed - 1];
  const pattern = patternOf(facts, shown.mode) || { rings: facts.rings, splits: {} };
  const laid = JSON.stringify([viewed, pattern, facts.sides]);
  if (by("rings").dataset.laid === laid) return;
  by("rings").dataset.laid = laid;
  buildRings(pattern.rings, facts);
  for (const [p, time] of Object.entries(pattern.splits)) {
    const box = by(`box-${p}`);
    if (box) put(box.querySelector(".split"), `split ${time} s`);
  }
}

function button(text, id, pressed) {
  const it = made("button", "", text);
  it.type = "button";
  it.id = id;
  if (pressed) it.setAttribute("aria-pressed", "false");
  return it;
}

function cell(...content) {
  const it = made("td");
  it.append(...content);
  return it;
}

function phaseRow(p) {
  const row = made("tr");
  const name = made("th", "", `${p} ${phaseName(p)}`.trim());
  name.scope = "row";
  const hold = button("Hold", `hold-${p}`, true);
  const pulse = button("Pulse", `pulse-${p}`);
  const rate = made("input");
  Object.assign(rate, { type: "number", min: 0, max: 3600, step: 50, value: 0, id: `rate-${p}` });
  const push = button("Push", `push-${p}`);
  const labels = ["hold the detector of", "a vehicle on", "vehicles an hour on", "push the button of"];
  [hold, pulse, rate, push].forEach((it, at) => it.setAttribute("aria-label", `${labels[at]} phase ${p}`));
  hold.addEventListener("click", () => toggle("veh", p));
  pulse.addEventListener("click", () => ask({ do: "pulse", cabinet: viewed, phase: p }));
  rate.addEventListener("change", () => {
    ask({ do: "rate", cabinet: viewed, phase: p, rate: Math.round(Number(rate.value)) });
  });
  push.addEventListener("click", () => ask({ do: "input", kind: "ped", cabinet: viewed, place: p }));
  const calls = cell();
  calls.id = `calls-${p}`;
  const lamps = [cell(), cell()];
  lamps[0].id = `vehicles-${p}`;
  lamps[1].id = `people-${p}`;
  row.append(name, ...lamps, calls, cell(hold, " ", pulse), cell(rate), cell(push));
  return row;
}

function toggle(kind, place) {
  const on = !known.inputs.has(`${kind} ${viewed} ${place}`);
  ask({ do: "input", kind, cabinet: viewed, place, on });
}

// Lists the enabled phases, where they are others than before.
function buildPhases() {
  const list = by("phases");
  const phases = known.facts[viewed - 1].phases;
  const listed = JSON.stringify([viewed, phases, known.names]);
  if (list.dataset.listed === listed) return;
  list.dataset.listed = listed;
  list.tBodies[0].replaceChildren(...phases.map(phaseRow));
}

function buildCabinet() {
  const facts = known.facts[viewed - 1];
  if (!facts) return;
  put(by("cabinet-title"), cabinetTitle(viewed));
  buildPhases();
  buildDrawing(facts);
  buildPreempts(facts);
}

// Draws the intersection, and names the phases that have no place in the drawing.
function buildDrawing(facts) {
  const names = (known.names.phases || [])[viewed - 1] || {};
  const others = drawIntersection(by("intersection"), facts, names, (known.names.placeholders || [])[viewed - 1] || []);
  by("other-phases").hidden = others.length === 0;
  put(by("other-phases"), `Not drawn: ${others.map((p) => `phase ${p} ${phaseName(p)}`.trim()).join(", ")}.`);
}

// Lists the preempts. The input of one without dwell phases does nothing: its button is greyed, unless it is on.
function buildPreempts(facts) {
  const preempts = Array.from({ length: 8 }, (_, at) => {
    const it = button(preemptTitle(at + 1), `preempt-${at + 1}`, true);
    it.addEventListener("click", () => toggle("preempt", at + 1));
    if (!facts.preempts.includes(at + 1)) it.title = "no dwell phases: its input does nothing";
    return it;
  });
  by("preempts").replaceChildren(...preempts);
  buildAlarms();
  const none = preempts.map((_, at) => at + 1).filter((n) => !facts.preempts.includes(n));
  by("no-preempts").hidden = none.length === 0;
  put(by("no-preempts"), `Not configured: ${none.join(", ")}. A preempt without dwell phases does nothing.`);
}

function factRows(shown, details) {
  const pattern = (known.facts[viewed - 1].patterns || {})[details.status] || {};
  const now = (value) => (value === undefined ? "–" : value);
  const command = { 0: "0: free", 254: "254: free", 255: "255: flash" }[details.command] || now(details.command);
  return [
    ["Mode", modeText(shown.mode)],
    ["Pattern in command", String(command)],
    ["Counter", details.counter === undefined ? "–" : seconds(details.counter)],
    ["Target", details.target === undefined ? "–" : seconds(details.target)],
    ["Cycle and offset", pattern.cycle ? `${seconds(pattern.cycle)}, ${seconds(pattern.offset)}` : "–"],
    ["Clock", details.clock === undefined ? "–" : clock(details.clock)],
    ["Tables", `version ${shown.version}`],
  ];
}

function showFacts(shown) {
  const details = known.details.cabinet === viewed ? known.details : {};
  const list = by("facts");
  factRows(shown, details).forEach(([name, text], at) => {
    if (!list.children[at]) {
      const pair = made("div");
      pair.append(made("dt", "", name), made("dd"));
      list.append(pair);
    }
    put(list.children[at].lastChild, text);
  });
}

function isCalled(p, kind) {
  const details = known.details.cabinet === viewed ? known.details : {};
  return Boolean(((details[`${kind}${p > 8 ? 2 : 1}`] || 0) >> ((p - 1) % 8)) & 1);
}

function showLamp(id, letter, words, ticks) {
  const place = by(id);
  if (place.dataset.letter !== letter) {
    place.dataset.letter = letter;
    place.replaceChildren(lamp(letter, "", words[letter]), " ", made("span"));
  }
  put(place.lastChild, seconds(ticks));
}

function press(id, on) {
  by(id).setAttribute("aria-pressed", String(on));
}

function showPhase(p, shown) {
  const letter = shown.vehicles[p - 1];
  const ticks = known.now - shown.since[p - 1];
  const box = by(`box-${p}`);
  if (box) {
    box.className = `phase ${letter}`;
    const walk = shown.pedestrians[p - 1];
    const signal = walk === "D" ? "" : `, ${SIGNALS[walk]}`;
    put(box.querySelector(".interval"), `${COLOURS[letter]} ${seconds(ticks)}${signal}`);
  }
  showLamp(`vehicles-${p}`, letter, COLOURS, ticks);
  showLamp(`people-${p}`, shown.pedestrians[p - 1], SIGNALS, known.now - shown.pedSince[p - 1]);
  const calls = [isCalled(p, "vehicles") ? "vehicle" : "", isCalled(p, "people") ? "person" : ""].filter(Boolean);
  put(by(`calls-${p}`), calls.join(", "));
  press(`hold-${p}`, known.inputs.has(`veh ${viewed} ${p}`));
  showDrawn(p, shown, known.inputs.has(`veh ${viewed} ${p}`), isCalled(p, "vehicles"));
  const rate = by(`rate-${p}`);
  if (document.activeElement !== rate) rate.value = String(known.rates[`${viewed} ${p}`] || 0);
}

function showCabinet() {
  const shown = known.cabinets[viewed];
  if (!shown || !by("preempt-1")) return;
  layRings(shown);
  showFacts(shown);
  for (const p of known.facts[viewed - 1].phases) showPhase(p, shown);
  press("hang", known.line.hanging.includes(viewed));
  for (const name of known.alarms) press(`alarm-${name}`, (known.alarmed[viewed] || []).includes(name));
  for (let n = 1; n <= 8; n += 1) {
    const isOn = known.inputs.has(`preempt ${viewed} ${n}`);
    press(`preempt-${n}`, isOn);
    by(`preempt-${n}`).disabled = !isOn && !known.facts[viewed - 1].preempts.includes(n);
  }
}

// Lists the alarms that a user turns on and off, if managers can read them.
function buildAlarms() {
  by("alarm-part").hidden = known.alarms.length === 0;
  by("alarms").replaceChildren(...known.alarms.map((name) => {
    const it = made("button", "", name);
    it.type = "button";
    it.id = `alarm-${name}`;
    it.addEventListener("click", () => {
      ask({ do: "alarm", cabinet: viewed, name, on: it.getAttribute("aria-pressed") !== "true" });
    });
    return it;
  }));
}

// all

function build() {
  put(by("street-title"), known.names.title || "Street");
  document.title = known.names.title || "Street";
  buildCards();
  buildTravel();
  buildMessageFilter();
  buildCabinet();
}

function show() {
  put(by("time"), moment(known.now));
  if (viewed) showCabinet();
  else showCards();
}

function showCards() {
  known.facts.forEach(showCard);
  arrangeCards();
}

function look() {
  viewed = Number(location.hash.slice(1)) || 0;
  if (viewed > known.facts.length && known.facts.length) viewed = 0;
  by("overview").hidden = viewed !== 0;
  by("cabinet").hidden = viewed === 0;
  by("facts").replaceChildren();
  known.details = {};
  ask({ do: "view", cabinet: viewed });
  if (viewed) buildCabinet();
  show();
}

function connect() {
  socket = new WebSocket(`${location.protocol === "https:" ? "wss" : "ws"}://${location.host}/feed${location.search}`);
  socket.addEventListener("open", () => {
    by("ending").hidden = true;
    ask({ do: "view", cabinet: viewed });
  });
  socket.addEventListener("message", (event) => take(JSON.parse(event.data)));
  socket.addEventListener("close", () => {
    if (by("ending").hidden) showEnding("The street doesn't answer. This page tries again.");
    setTimeout(connect, 2000);
  });
}

by("pause").addEventListener("click", () => ask({ do: "speed", speed: known.speed === 0 ? resumed : 0 }));
by("bad-line").addEventListener("click", () => ask({ do: "line", on: !known.line.on }));
by("reboot").addEventListener("click", () => ask({ do: "reboot", cabinet: viewed }));
by("hang").addEventListener("click", () => {
  ask({ do: "hang", cabinet: viewed, on: !known.line.hanging.includes(viewed) });
});
by("tick").addEventListener("click", () => ask({ do: "step", ticks: 1 }));
by("second").addEventListener("click", () => ask({ do: "step", ticks: 10 }));
by("speed").addEventListener("change", () => ask({ do: "speed", speed: Number(by("speed").value) }));
for (const id of ["minutes", "outbound", "inbound"]) {
  by(id).addEventListener("change", () => drawDiagram(known));
}
for (const id of ["message-cabinet", "message-kind", "message-text"]) by(id).addEventListener("input", filterMessages);
for (const id of ["card-kind", "card-text", "card-order"]) by(id).addEventListener("input", arrangeCards);
window.addEventListener("hashchange", look);
viewed = Number(location.hash.slice(1)) || 0;
by("overview").hidden = viewed !== 0;
by("cabinet").hidden = viewed === 0;
by("no-drawing").hidden = typeof d3 !== "undefined";
connect();
