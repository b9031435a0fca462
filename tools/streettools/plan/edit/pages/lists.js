// The lists of the page: intersections, phases, measures, checks and versions, with fields for all values.
"use strict";

const TIMES = { min_green: "min green", max_green: "max green", passage: "passage", walk: "walk",
  ped_clear: "ped clear", yellow: "yellow", red_clear: "red clear" };
const LIMITS = { add_limit: "add limit", skip_limit: "skip limit", dwell_limit: "dwell limit" };

// A field for a number, which asks for a change once it is typed.
function field(id, label, step, change) {
  const it = made("input");
  Object.assign(it, { type: "number", id, step, min: 0 });
  it.setAttribute("aria-label", label);
  it.addEventListener("change", () => {
    it.dataset.told = "typed"; // what is shown next replaces it, also if it is the value from before
    if (it.value !== "" && Number.isFinite(Number(it.value))) edit(change(Number(it.value)), true);
  });
  return it;
}

function setField(id, value, isThere) {
  const it = by(id);
  if (!it) return;
  it.disabled = !isThere;
  const text = isThere && value !== null && value !== undefined ? String(value) : "";
  if (document.activeElement !== it || it.dataset.told !== text) it.value = text;
  it.dataset.told = text;
}

function cells(row, ...content) {
  for (const it of content) {
    const cell = made("td");
    if (it !== null) cell.append(it);
    row.append(cell);
  }
  return row;
}

// Builds the rows of a table again where its key differs from before.
function build(table, key, rows) {
  if (table.dataset.key === key) return;
  table.dataset.key = key;
  table.tBodies[0].replaceChildren(...rows());
}

function intersectionRow(it) {
  const row = made("tr");
  const head = made("th");
  head.scope = "row";
  const button = made("button", "", it.name);
  button.type = "button";
  button.id = `choose-${it.number}`;
  button.addEventListener("click", () => choose(it.number));
  head.append(button);
  row.id = `row-${it.number}`;
  row.append(head);
  const of = (kind, label, step) => field(`${kind}-${it.number}`, `${label} of ${it.name}`, step,
    (value) => ({ kind, intersection: it.number, value }));
  const mark = made("span");
  mark.id = `marks-${it.number}`;
  return cells(row, of("offset", "Offset", 1), of("cycle", "Cycle", 1), of("travel", "Travel to the next from", "any"), mark);
}

function showIntersections(street) {
  const table = by("intersections");
  build(table, JSON.stringify(street.map((it) => [it.number, it.name])), () => street.map(intersectionRow));
  street.forEach((it, at) => {
    by(`row-${it.number}`).classList.toggle("chosen", it.number === known.view.intersection);
    setField(`offset-${it.number}`, it.offset / 10, it.offset !== undefined && known.view.pattern > 0);
    setField(`cycle-${it.number}`, it.cycle / 10, it.cycle !== undefined && known.view.pattern > 0);
    setField(`travel-${it.number}`, it.travel, at + 1 < street.length);
    const found = known.checks.filter((one) => one.number === it.number);
    const errors = found.filter((one) => one.level === "error").length;
    const warnings = found.filter((one) => one.level === "warning").length;
    const on = runsOn(at);
    put(by(`marks-${it.number}`), [errors ? `⚠ ${errors} broken` : "", warnings ? `${warnings} warning${warnings === 1 ? "" : "s"}` : "", on]
      .filter(Boolean).join(", ") || "–");
  });
}

// Says whether an intersection of the run is on its offset at its end.
function runsOn(at) {
  const { run } = known.shown;
  if (!run || !run.on || !known.view.pattern) return "";
  return run.on[at] === null ? "not on its offset yet" : "";
}

function phaseRow(phase) {
  const row = made("tr");
  const head = made("th", "", `${phase.phase} ${phase.partner ? "placeholder" : phase.name}`.trim());
  head.scope = "row";
  row.append(head);
  const split = field(`split-${phase.phase}`, `Split of phase ${phase.phase}`, 1,
    (value) => ({ kind: "split", phase: phase.phase, value }));
  cells(row, split);
  for (const [name, words] of Object.entries(TIMES)) {
    const step = ["passage", "yellow", "red_clear"].includes(name) ? 0.1 : 1;
    cells(row, field(`${name}-${phase.phase}`, `${words} of phase ${phase.phase}`, step,
      (value) => ({ kind: "time", phase: phase.phase, name, value })));
  }
  const spare = made("td");
  spare.id = `spare-${phase.phase}`;
  row.append(spare);
  return row;
}

function showPhases(chosen) {
  const table = by("phases");
  if (!table.tHead.rows.length) {
    const row = made("tr");
    for (const text of ["Phase", "split, s", ...Object.values(TIMES).map((it) => `${it}, s`), "to spare"]) {
      const head = made("th", "", text);
      head.scope = "col";
      row.append(head);
    }
    table.tHead.append(row);
  }
  const key = JSON.stringify([chosen.number, chosen.phases.map((it) => [it.phase, it.name, it.partner])]);
  build(table, key, () => chosen.phases.map(phaseRow));
  const slots = chosen.rings ? chosen.rings.slots : [];
  for (const phase of chosen.phases) {
    const slot = slots.find((it) => it.phase === phase.phase);
    setField(`split-${phase.phase}`, slot && (slot.end - slot.start) / 10, Boolean(slot) && !phase.partner);
    for (const name of Object.keys(TIMES)) setField(`${name}-${phase.phase}`, phase[name], !phase.partner);
    const room = slot && (slot.coordinated ? chosen.rings.room : slot.room);
    const found = checksOf(phase.phase);
    const spare = by(`spare-${phase.phase}`);
    put(spare, (phase.partner || room === undefined || room === null ? "–" : seconds(room)) + (found.length ? " ⚠" : ""));
    spare.className = room < 0 ? "worse" : "";
    spare.title = found.map((it) => it.words).join("\n");
  }
}

// What the check finds of a phase of the chosen intersection.
function checksOf(phase) {
  const named = new RegExp(`\\bphase ${phase}\\b`);
  return known.checks.filter((it) => it.number === known.view.intersection && it.level !== "note" && named.test(it.words));
}

function showOrder(chosen) {
  const swaps = chosen.rings ? chosen.rings.swaps : [];
  const key = JSON.stringify(swaps);
  if (by("swaps").dataset.key !== key) {
    by("swaps").dataset.key = key;
    by("swaps").replaceChildren(...swaps.map(([one, other]) => {
      const it = made("button", "", `serve ${other} before ${one}`);
      it.type = "button";
      it.id = `swap-${one}`;
      it.addEventListener("click", () => edit({ kind: "swap", phase: one }, true));
      return it;
    }));
  }
  if (!by("add_limit")) {
    by("limits").replaceChildren(...Object.entries(LIMITS).map(([name, words]) => {
      const label = made("label", "", `${words}, s `);
      label.append(field(name, words, 0.1, (value) => ({ kind: "limit", name, value })));
      return label;
    }));
  }
  for (const name of Object.keys(LIMITS)) setField(name, chosen.limits[name], true);
}

function checkItem(it) {
  const item = made("li", it.level);
  const level = it.level + (it.rule ? `, rule ${it.rule}` : "") + (it.rank ? ` (${it.rank})` : "");
  const where = [it.place, it.where].filter(Boolean).join(", ");
  item.append(made("strong", "", `${where ? `${where}: ` : ""}${level}: `), it.words);
  return item;
}

function showChecks() {
  const counts = ["error", "warning", "note"].map((level) => [level, known.checks.filter((it) => it.level === level).length]);
  put(by("checks-count"), counts.map(([level, count]) => `${count} ${level}${count === 1 ? "" : "s"}`).join(", "));
  by("checks").replaceChildren(...known.checks.map(checkItem));
  const here = known.checks.filter((it) => it.number === known.view.intersection && it.level !== "note");
  by("chosen-checks").replaceChildren(...here.map(checkItem));
}

// A row of the table before and after: the less the better, unless `more` is better.
function measureRow(name, before, now, unit, isMore) {
  const row = made("tr");
  const head = made("th", "", name);
  head.scope = "row";
  row.append(head);
  const text = (it) => (it === null || it === undefined ? "–" : `${Math.round(100 * it) / 100}${unit}`);
  const both = [before, now].every((it) => it !== null && it !== undefined);
  const change = both ? Math.round(100 * (now - before)) / 100 : null;
  const cell = made("span", change ? ((change > 0) === isMore ? "better" : "worse") : "",
    change === null ? "–" : change === 0 ? "the same" : `${change > 0 ? "+" : "−"}${Math.abs(change)}${unit}`);
  return cells(row, text(before), text(now), cell);
}

function widthOf(shown, way) {
  const found = shown.bands && shown.bands.bands;
  return found ? (found[way] ? found[way][1] / 10 : 0) : null;
}

function shareOf(shown, way) {
  return shown.run && shown.run.share ? 100 * shown.run.share[way] : null;
}

function showMeasures() {
  const rows = [];
  ["outbound", "inbound"].forEach((name, way) => {
    rows.push(measureRow(`widest planned band, ${name}`, widthOf(known.base, way), widthOf(known.shown, way), " s", true));
    rows.push(measureRow(`time in a band of the run, ${name}`, shareOf(known.base, way), shareOf(known.shown, way), " %", true));
  });
  const [before, now] = known.measures || [null, null];
  const refused = (now && now.refused) || (before && before.refused);
  if (before && now && !refused) {
    const names = [["delay", "delay of a vehicle", " s"], ["stops", "stops of a vehicle", ""], ["queue", "longest queue", " vehicles"]];
    for (const [key, words, unit] of names) rows.push(measureRow(`${words}, street`, before.street[key], now.street[key], unit, false));
    now.cabinets.forEach((it, at) => {
      const name = known.state.names[it.number - 1];
      const old = before.cabinets[at] || {};
      for (const [key, words, unit] of names) rows.push(measureRow(`${words}, ${name}`, old[key], it[key], unit, false));
    });
  }
  put(by("before-title"), `before: ${known.base.label || "the file"}`);
  const waits = known.state && known.state.volumes && !known.measures ? "Delay, stops and queues are being measured." : "";
  const without = known.state && !known.state.volumes ? "With --volumes FILE the editor also measures delay, stops and queues." : "";
  put(by("measures-note"), refused ? `No delay, stops and queues: ${refused}` : waits || without);
  by("measures").tBodies[0].replaceChildren(...rows);
}

function showBands() {
  const { run, bands } = known.shown;
  const texts = ["outbound", "inbound"].map((name, way) => {
    const width = widthOf(known.shown, way);
    const share = shareOf(known.shown, way);
    return `${name} ${width === null ? "–" : `${width} s planned`}${share === null ? "" : `, ${share.toFixed(1)} % of the time as run`}`;
  });
  const refused = (run && run.refused && `the program doesn't run this plan: ${run.refused}`) || (bands && bands.refused) || "";
  put(by("bands"), known.shown.stale ? "Bands: the run is on its way …" : refused ? `Bands: ${refused}` : `Bands: ${texts.join("; ")}`);
}

function showVersions() {
  const { versions, version } = known.state;
  by("versions").replaceChildren(...versions.map(([number, label]) => {
    const it = made("li", number === version ? "now" : "", label);
    if (number === version) it.setAttribute("aria-current", "true");
    return it;
  }));
  by("versions").start = 1;
  const chosen = by("other").value;
  const options = [new Option("the file", "0"), ...versions.map(([number, label], at) => new Option(`${at + 1}. ${label}`, number))];
  by("other").replaceChildren(...options);
  by("other").value = options.some((it) => it.value === chosen) ? chosen : "0";
}
