// The page of the editor: it keeps what the editor tells it, draws it, and asks for what is dragged and typed.
"use strict";

const EDITS = { offsets: { begin: beginOffset, move: moveOffset, end: endOffset, key: keyOffset } };
const HELD = 500;
let socket = null;
let typed = null;

function ask(order) {
  if (socket && socket.readyState === WebSocket.OPEN) socket.send(JSON.stringify(order));
}

function say(text, isRefused) {
  put(by("said"), text);
  by("said").classList.toggle("refused", Boolean(isRefused));
}

// Asks for a change: tried while something moves, made at the end.
function edit(change, isSet) {
  if (!known.state || !known.facts) return;
  known.mark += 1;
  known.moved = performance.now();
  const whole = { intersection: known.view.intersection, pattern: known.facts.chosen.pattern,
    snap: by("snap").checked, ...change };
  if (!isSet) markStale();
  ask({ do: isSet ? "set" : "try", at: known.state.version, mark: known.mark, change: whole });
}

function markStale() {
  known.shown.stale = true;
  by("diagram").classList.add("stale");
  showBands();
}

// offsets

function beginOffset(row, x) {
  return known.view.pattern ? { row, x, value: row.offset / 10, before: row.offset / 10 } : null;
}

function rowsWith(number, offset) {
  return known.facts.street.map((it) => (it.number === number ? { ...it, offset: 10 * offset } : it));
}

function moveOffset(it, way) {
  const cycle = it.row.cycle / 10;
  const value = modulo(Math.round(it.before + way / (it.x(10) - it.x(0))), cycle);
  if (value === it.value) return;
  it.value = value;
  showOffset(it.row, value);
}

// Shows an offset at once as it is planned, and asks for its run.
function showOffset(row, value) {
  const rows = rowsWith(row.number, value);
  edit({ kind: "offset", intersection: row.number, value }, false);
  drawDiagram("diagram", { rows, ...known.shown, stale: true }, EDITS.offsets);
  setField(`offset-${row.number}`, value, true);
  say(`${row.name}: offset ${value} s`);
}

function endOffset(it, way, isOver) {
  if (it.value !== it.before && !isOver) edit({ kind: "offset", intersection: it.row.number, value: it.value }, true);
  else show();
}

function keyOffset(event, row) {
  if (!known.view.pattern) return;
  const ends = { Home: 0, End: row.cycle / 10 - 1 };
  const step = stepOf(event);
  if (!step && !(event.key in ends)) return;
  event.preventDefault();
  const before = typed && typed.row.number === row.number ? typed.value : row.offset / 10;
  const value = event.key in ends ? ends[event.key] : modulo(before + step, row.cycle / 10);
  if (typed) clearTimeout(typed.timer);
  typed = { row, value, timer: setTimeout(endTyped, HELD) };
  showOffset(row, value);
}

function endTyped() {
  const { row, value } = typed;
  typed = null;
  edit({ kind: "offset", intersection: row.number, value }, true);
}

// what is looked at

function choose(number) {
  known.view.intersection = number;
  look();
}

function look() {
  markStale();
  known.measures = null;
  const { intersection, pattern, time, minutes, settled, calls } = known.view;
  ask({ do: "view", view: { intersection, pattern, time, minutes, settled, calls }, other: Number(by("other").value) || 0 });
}

function readView() {
  Object.assign(known.view, {
    pattern: Number(by("pattern").value), time: Math.floor(ticksOf(by("time").value) / 10),
    minutes: within(Math.round(Number(by("minutes").value)) || 10, 1, 60), settled: by("settled").checked,
    calls: by("calls").value,
  });
  look();
}

function beginView(usual) {
  known.view = { intersection: 1, pattern: usual.pattern, time: usual.time, minutes: 10, settled: true, calls: "all" };
  by("time").value = clock(10 * usual.time);
  by("minutes").value = 10;
}

function showNames(names) {
  const key = JSON.stringify(names);
  if (by("intersection").dataset.key !== key) {
    by("intersection").dataset.key = key;
    by("intersection").replaceChildren(...names.map((it, at) => new Option(it, at + 1)));
  }
  by("intersection").value = String(known.view.intersection);
}

function showPatterns(patterns) {
  const options = [...patterns.map((it) => new Option(`pattern ${it}`, it)), new Option("by the schedule", 0)];
  const key = JSON.stringify(patterns);
  if (by("pattern").dataset.key !== key) {
    by("pattern").dataset.key = key;
    by("pattern").replaceChildren(...options);
  }
  by("pattern").value = String(known.view.pattern);
}

// what the editor tells

function take(told) {
  if (told.state) takeState(told.state);
  if (told.refused !== undefined) takeRefusal(told);
  if (told.ending) showEnding(told.ending);
  if (told.ask) askChanged();
  if (told.base !== undefined) takeBase(told);
  else if (told.facts || told.run || told.checks || told.measures) takeVersion(told);
  if (told.tried !== undefined && told.mark === undefined && told.street) takeTried(told);
  if (told.notes && told.notes.length) say(told.notes.join(" "), told.done !== undefined);
  else if (told.done !== undefined) say(told.label);
  document.body.dataset.version = known.state ? known.state.version : "";
}

function takeState(state) {
  const isFirst = !known.state;
  known.state = state;
  put(by("title"), state.title || state.file);
  document.title = `${state.saved ? "" : "• "}${state.title || state.file}`;
  const others = state.pages > 1 ? `; ${state.pages} pages are open` : "";
  const changed = state.changed ? "; another program has changed the file" : "";
  put(by("kept"), `${state.file}: ${state.saved ? "saved" : "changes aren't saved yet"}${changed}${others}`);
  [["undo", state.undo], ["redo", state.redo]].forEach(([id, label]) => {
    by(id).disabled = label === null;
    by(id).title = label || "";
  });
  by("save").disabled = state.saved && !state.changed;
  if (isFirst) beginView(state.usual);
  if (known.view.pattern && !state.patterns.includes(known.view.pattern)) known.view.pattern = state.usual.pattern;
  showPatterns(state.patterns);
  showNames(state.names);
  showVersions();
  showExports();
  askDraft(state.draft);
  if (isFirst || known.isNew) {
    known.isNew = false;
    look();
  }
}

function takeRefusal(told) {
  say(told.refused, true);
  if (told.tried === undefined) {
    known.shown.stale = false;
    show();
  }
}

function takeBase(told) {
  known.base = { number: told.base, label: told.label, rows: told.facts.street, run: told.run, bands: told.bands };
  showOther();
  showMeasures();
}

function takeTried(told) {
  if (told.tried !== known.mark) return;
  if (told.notes.length) say(told.notes.join(" "), true);
  known.tried = told.street;
  drawDiagram("diagram", { rows: told.street, ...known.shown, stale: true }, EDITS.offsets);
}

function takeVersion(told) {
  if (told.mark !== undefined && told.mark !== known.mark) return;
  if (told.version !== undefined && known.state && told.version !== known.state.version) return;
  if (told.checks) known.checks = told.checks;
  if (told.measures) known.measures = told.measures;
  if (told.facts) {
    known.facts = told.facts;
    known.view.intersection = told.facts.chosen.number;
    known.tried = null;
  }
  if (told.run) known.shown = { run: told.run, bands: told.bands, stale: false };
  if (!known.facts) return;
  if (told.mark !== undefined) showTriedRun();
  else if (!known.drag && !typed) show();
  if (told.run && known.moved) {
    document.body.dataset.took = Math.round(performance.now() - known.moved);
    document.body.dataset.mark = known.mark;
  }
}

function showTriedRun() {
  drawDiagram("diagram", { rows: known.tried || known.facts.street, ...known.shown }, EDITS.offsets);
  showBands();
  showMeasures();
}

// all

function show() {
  if (!known.facts || !known.state) return;
  const { street, chosen } = known.facts;
  drawDiagram("diagram", { rows: street, ...known.shown }, EDITS.offsets);
  showNames(known.state.names);
  const { pattern, time, minutes } = known.view;
  put(by("diagram-title"), `Now: ${pattern ? `pattern ${pattern}` : "by the schedule"}, ${minutes} minutes from ${clock(10 * time)}`);
  put(by("chosen-title"), `${chosen.name} (intersection ${chosen.number})`);
  showIntersections(street);
  showPhases(chosen);
  showOrder(chosen);
  drawRings();
  showChecks();
  showBands();
  showMeasures();
  showOther();
}

function showOther() {
  const isShown = by("beside").checked && known.base.rows;
  by("other-figure").hidden = !isShown;
  if (!isShown) return;
  put(by("other-title"), `Before: ${known.base.label}`);
  drawDiagram("other-diagram", known.base, null);
}

function showEnding(text) {
  by("ending").hidden = false;
  put(by("ending"), text);
}

function showExports() {
  const names = { sheet: "sheet (.toml)", scenario: "scenario (.json)", utdf: "UTDF of the pattern (.csv)", loads: "downloads from the file's plan (.json)" };
  const pattern = known.view.pattern || 1;
  by("exports").replaceChildren(...Object.entries(names).map(([kind, words]) => {
    const item = made("li");
    const link = made("a", "", words);
    link.href = `export/${kind}${location.search}&pattern=${pattern}`;
    link.id = `export-${kind}`;
    link.setAttribute("download", "");
    item.append(link);
    return item;
  }));
}

// questions

function question(text, answers) {
  by("asked").hidden = false;
  put(by("question"), text);
  by("answers").replaceChildren(...answers.map(([id, words, does]) => {
    const it = made("button", "", words);
    it.type = "button";
    it.id = id;
    it.addEventListener("click", () => {
      by("asked").hidden = true;
      does();
    });
    return it;
  }));
  by("answers").firstChild.focus();
}

function askDraft(draft) {
  if (!draft) {
    if (by("asked").dataset.kind === "draft") by("asked").hidden = true;
    by("asked").dataset.kind = by("asked").hidden ? "" : by("asked").dataset.kind;
    return;
  }
  if (by("asked").dataset.kind === "draft" && !by("asked").hidden) return;
  by("asked").dataset.kind = "draft";
  const when = new Date(1000 * draft.time).toLocaleString();
  const fits = draft.fits ? "" : " The file has changed since.";
  question(`A draft of ${when} has changes that weren't saved.${fits}`, [
    ["take-draft", "Take the draft", () => ask({ do: "draft", take: true })],
    ["drop-draft", "Drop it", () => ask({ do: "draft", take: false })],
  ]);
}

function askChanged() {
  by("asked").dataset.kind = "changed";
  question("Another program has changed the file since it was read. What is to be kept?", [
    ["load", "Take the file (undo brings this plan back)", () => ask({ do: "load" })],
    ["over", "Save this plan over it", () => ask({ do: "save", at: known.state.version, over: true })],
    ["neither", "Neither now", () => {}],
  ]);
}

// the page

function save() {
  if (known.state && !by("save").disabled) ask({ do: "save", at: known.state.version, over: false });
}

function step(back) {
  if (known.state) ask({ do: back ? "undo" : "redo", at: known.state.version });
}

function shortcut(event) {
  if (!(event.ctrlKey || event.metaKey) || event.altKey) return;
  const key = event.key.toLowerCase();
  const isText = event.target.tagName === "INPUT" && event.target.type !== "checkbox";
  const does = { s: save, z: () => step(!event.shiftKey), y: () => step(false) }[key];
  if (!does || (isText && key !== "s")) return;
  event.preventDefault();
  does();
}

function connect() {
  socket = new WebSocket(`${location.protocol === "https:" ? "wss" : "ws"}://${location.host}/feed${location.search}`);
  socket.addEventListener("open", () => {
    by("ending").hidden = true;
    known.isNew = Boolean(known.state);
  });
  socket.addEventListener("message", (event) => take(JSON.parse(event.data)));
  socket.addEventListener("close", () => {
    if (by("ending").hidden) showEnding("The editor doesn't answer. This page tries again; what was changed is in the draft.");
    setTimeout(connect, 2000);
  });
}

by("undo").addEventListener("click", () => step(true));
by("redo").addEventListener("click", () => step(false));
by("save").addEventListener("click", save);
for (const id of ["pattern", "time", "minutes", "calls", "settled", "other"]) by(id).addEventListener("change", readView);
by("intersection").addEventListener("change", () => choose(Number(by("intersection").value)));
for (const id of ["outbound", "inbound", "beside"]) by(id).addEventListener("change", show);
window.addEventListener("keydown", shortcut);
window.addEventListener("resize", () => { if (!known.drag) show(); });
window.addEventListener("beforeprint", () => show());
by("no-drawing").hidden = typeof d3 !== "undefined";
connect();
