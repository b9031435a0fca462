/* What the trace says under the pointer: the frame's line itself, and what it means in words. */
const Pointer = (() => {
  const state = { x: null, tick: null, cabinet: null };

  /* A phase's signal as a run: since when, until when, and how its green ended. */
  function run(cabinet, lane, tick, words) {
    const i = Lanes.run(lane, tick), code = lane.codes[i], phase = lane.phases[i];
    if (!code) return null;
    const start = lane.starts[i], end = lane.starts[i + 1];
    const ended = words === Text.SIGNALS && code === 1 ? ending(cabinet, phase, end) : "";
    const length = Text.seconds(end - start);
    return `phase ${phase} ${words[code]} ${Text.time(start)} to ${Text.time(end)} (${length}${ended})`;
  }

  function ending(cabinet, phase, tick) {
    const greens = cabinet.greens;
    for (let i = Data.at(greens.tick, tick); i >= 0 && greens.tick[i] === tick; i -= 1) {
      if (greens.phase[i] === phase) return `, ended by ${Data.head.texts.endings[greens.ending[i]]}`;
    }
    return "";
  }

  function zero(cabinet, tick) {
    const i = Data.at(cabinet.zeros.tick, tick);
    if (i < 0) return null;
    const words = cabinet.zeros.pickup[i] ? "pattern taken up" : "local zero";
    return `${words} at tick ${cabinet.zeros.tick[i]}: ${Text.deviation(Data.error(cabinet, i))}`;
  }

  function marks(cabinet, tick) {
    const reach = 6 * (View.state.to - View.state.from) / View.state.width;
    return Marks.near(cabinet, tick, reach).map(i => `tick ${cabinet.marks.tick[i]}: ${Marks.words(cabinet, i)}`);
  }

  function words(cabinet, tick, place) {
    const mode = Text.mode(Data.head.texts.modes[cabinet.frames.mode[place]]);
    const signals = [1, 2].map(ring => run(cabinet, Lanes.ring(cabinet, ring, false), tick, Text.SIGNALS));
    const walks = [1, 2].map(ring => run(cabinet, Lanes.ring(cabinet, ring, true), tick, Text.WALKS));
    return [mode, zero(cabinet, tick), ...signals, ...walks, ...marks(cabinet, tick)].filter(Boolean).join(" · ");
  }

  function show() {
    const cabinet = Data.cabinet(state.cabinet), place = Data.at(cabinet.frames.tick, state.tick);
    const round = Math.max(1, Math.ceil(state.tick / Data.head.ticks));
    d3.select("#at").text(`tick ${state.tick} · ${Text.time(state.tick)} · round ${round} · ${cabinet.title}`);
    d3.select("#line").text(Data.line(cabinet, place));
    d3.select("#words").text(words(cabinet, state.tick, place));
  }

  /* Takes over where the pointer is: over which panel, at which place of its picture. */
  function at(panel, [x, y]) {
    const row = panel.rows.rows.find(it => it.cabinet && y >= it.y - 1 && y <= it.y + it.height + 1);
    Object.assign(state, { x, cabinet: row ? row.cabinet.number : state.cabinet || View.state.cabinet });
    follow();
  }

  /* Tells what stands at the pointer's place now: the view may have moved below it. */
  function follow() {
    if (state.x === null) return;
    state.tick = Math.max(0, Math.min(Data.last, Math.floor(View.state.tick(state.x) + 1e-6)));
    for (const it of Panel.all) it.cursor.attr("visibility", "visible").attr("x1", state.x).attr("x2", state.x);
    show();
  }

  /* Puts the pointer on a tick of a cabinet that is seen. */
  function put(tick, cabinet) {
    Object.assign(state, { x: View.state.x(tick), cabinet });
    follow();
  }

  /* Shows the command that says why a phase is green at the pointer's tick, or isn't: the phase of a call's row, or the
  one that is on in a ring. */
  function ask(panel, [, y]) {
    const row = panel.rows.rows.find(it => y >= it.y && y <= it.y + it.height);
    const lane = row && row.ring ? Lanes.ring(row.cabinet, row.ring, false) : null;
    const called = row && row.kind === "calls" && !row.isPreempt ? row.number : 0;
    const phase = lane ? lane.phases[Lanes.run(lane, state.tick)] : called;
    if (!phase) return;
    d3.select("#why").text(`./arterial why TRACE --cabinet ${state.cabinet} --phase ${phase} --at ${state.tick}t`);
  }

  function watch(panel) {
    panel.area.on("mousemove", function move() { at(panel, d3.mouse(this)); });
    panel.area.on("touchstart.pointer", function touch() { at(panel, d3.touches(this)[0]); });
    panel.area.on("click", function click() {
      if (d3.event.shiftKey || d3.event.defaultPrevented) return;
      if (panel.id === "rings") ask(panel, d3.mouse(this));
      else Page.choose(state.cabinet);
    });
  }

  return { state, watch, follow, put };
})();
