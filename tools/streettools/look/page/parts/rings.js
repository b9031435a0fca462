/* The rings of one cabinet: greens, clearances and walks of both, its mode, its marks, calls and preempt inputs. */
const Rings = (() => {
  const RING = 34, ROW = 15, GAP = 4;
  const colours = Data.head.colours;
  let panel = null, paints = [], pixels = [], stripes = null;

  function plan() {
    const cabinet = Data.cabinet(View.state.cabinet), rows = [];
    let y = 14;
    const add = (kind, label, height, more) => {
      rows.push({ kind, label, y, height, cabinet, ...more });
      y += height + GAP;
    };
    for (const ring of [1, 2]) add("ring", `ring ${ring}`, RING, { ring });
    add("mode", "mode", ROW);
    add("marks", "marks", ROW);
    for (const it of Calls.of(cabinet)) {
      const name = it.isPreempt ? cabinet.preempts[it.number] : cabinet.phases[it.number];
      const preempt = `${name || `preempt ${it.number}`} input`;
      add("calls", it.isPreempt ? preempt : `call ${it.number} ${name || ""}`.trim(), 11, it);
    }
    return { rows, height: y };
  }

  const ink = code => (code === 2 ? "#22262a" : "#fff");

  function drawRing(context, row) {
    const lane = Lanes.ring(row.cabinet, row.ring, false);
    if (!Lanes.isFine(lane, View.state)) {
      panel.raster.need();
      Lanes.shares(lane, View.state, panel.raster, row.y, RING, pixels);
      return;
    }
    context.fillStyle = paints[0];
    context.fillRect(0, row.y, View.state.width, RING);
    Lanes.each(lane, View.state, (code, phase, low, high) => {
      context.fillStyle = paints[code];
      context.fillRect(low, row.y, Math.max(high - low - 0.4, 0.7), RING);
      const name = row.cabinet.phases[phase], letter = " GYC"[code];
      const texts = [name && `${phase} ${name} ${letter}`, `${phase} ${letter}`, `${phase}`];
      if (high - low > 8) within(context, texts, low, high, row.y + 12, ink(code));
    });
    drawWalks(context, row);
  }

  function drawWalks(context, row) {
    Lanes.each(Lanes.ring(row.cabinet, row.ring, true), View.state, (code, phase, low, high) => {
      context.fillStyle = code === 1 ? colours.signals.walk : stripes || colours.signals.flashing;
      context.fillRect(low, row.y + 21, Math.max(high - low, 0.7), 11);
      context.strokeStyle = "#22262a";
      context.lineWidth = 0.6;
      context.strokeRect(low, row.y + 21, high - low, 11);
      const letter = code === 1 ? "W" : "F";
      if (high - low > 9) within(context, [`${phase} ${letter}`, letter], low, high, row.y + 27, "#22262a");
    });
  }

  /* Lines across both rings: barriers, and local zeros with a 0 above them. */
  function drawLines(context, cabinet) {
    const { from, to, x, width } = View.state, foot = 14 + 2 * RING + GAP;
    const seen = ticks => ticks.subarray(Data.at(ticks, from - 1) + 1, Data.at(ticks, to) + 1);
    const barriers = seen(cabinet.barriers.tick), zeros = seen(cabinet.zeros.tick);
    context.fillStyle = colours.lines.barrier;
    if (barriers.length < width / 12) for (const tick of barriers) context.fillRect(x(tick) - 1, 14, 2, foot - 14);
    if (zeros.length > width / 12) return;
    context.strokeStyle = context.fillStyle = colours.lines.zero;
    context.textAlign = "center";
    context.lineWidth = 1.4;
    context.setLineDash([4, 3]);
    for (const tick of zeros) {
      context.beginPath();
      context.moveTo(x(tick), 13);
      context.lineTo(x(tick), foot + ROW + GAP);
      context.stroke();
      context.fillText("0", x(tick), 7);
    }
    context.setLineDash([]);
  }

  function draw(context, it) {
    const rows = it.rows.rows, cabinet = rows[0].cabinet;
    for (const row of rows) {
      if (row.kind === "ring") drawRing(context, row);
      if (row.kind === "mode") Modes.draw(context, cabinet, row.y, row.height, row.y + row.height / 2);
      if (row.kind === "calls") Calls.draw(context, row);
    }
    it.raster.end(context);
    drawLines(context, cabinet);
    for (const row of rows) if (row.kind === "marks") Marks.draw(context, cabinet, row.y, row.height, true);
  }

  /* Stripes for flashing don't walk. */
  function striped(context) {
    const tile = document.createElement("canvas"), size = 6;
    tile.width = tile.height = size;
    const brush = tile.getContext("2d");
    brush.fillStyle = "#fff";
    brush.fillRect(0, 0, size, size);
    brush.fillStyle = colours.signals.flashing;
    for (let i = 0; i < size; i += 1) brush.fillRect(i, size - 1 - i, 3, 1);
    return context.createPattern(tile, "repeat");
  }

  function open() {
    const { green, yellow, clearance, red, walk, flashing } = colours.signals;
    const { call, preempt, zero, barrier } = colours.lines;
    paints = [red, green, yellow, clearance];
    pixels = [green, yellow, clearance, red].map(Raster.colour);
    panel = new Panel("rings", "Rings", plan, draw);
    stripes = striped(panel.canvas.getContext("2d"));
    Page.explain(panel, [
      [green, "G", "green", "#fff"], [yellow, "Y", "yellow change"], [clearance, "C", "red clearance", "#fff"],
      [red, "", "red"], [walk, "W", "walk"], [flashing, "F", "flashing don't walk"], [barrier, "", "barrier crossed"],
      [zero, "0", "local zero", "#fff"], [call, "", "vehicle call"], [barrier, "P", "button pressed", "#fff"],
      [preempt, "", "preempt input"],
    ]);
  }

  return { open };
})();
