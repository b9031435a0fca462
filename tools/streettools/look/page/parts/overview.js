/* The overview: of each cabinet its mode and pattern, each local zero as late or early, and the marks. */
const Overview = (() => {
  const height = () => (Data.head.cabinets.length > 16 ? 15 : 26);
  const colours = Data.head.colours;
  let panel = null;

  function plan() {
    const tall = height() + 3;
    const rows = Data.head.cabinets.map((cabinet, place) => ({
      y: place * tall + 2, height: height(), label: cabinet.title, cabinet,
      chosen: cabinet.number === View.state.cabinet, pick: () => Page.choose(cabinet.number),
    }));
    return { rows, height: rows.length * tall + 2 };
  }

  /* Puts local zeros to their heights in a lane: small deviations are told apart, and the greatest of all has room. */
  function place() {
    const most = d3.max(Data.head.cabinets, cabinet => d3.max(cabinet.zeros.error, Math.abs)) || 1;
    const scale = d3.scaleSqrt().domain([-most, most]).range([height() / 2 - 3, 3 - height() / 2]);
    for (const { zeros } of Data.head.cabinets) zeros.y = Float32Array.from(zeros.error, scale);
  }

  /* Local zeros: a point on the line is on the offset, above it late, below it early. */
  function drawZeros(context, row) {
    const { from, to, x } = View.state, zeros = row.cabinet.zeros, middle = row.y + row.height / 2;
    const low = Data.at(zeros.tick, from - 1) + 1, high = Data.at(zeros.tick, to) + 1;
    context.fillStyle = colours.lines.met;
    if (high > low) context.fillRect(0, middle - 0.25, View.state.width, 0.5);
    if (high - low > View.state.width / 6) return drawDense(row, low, high);
    for (let i = low; i < high; i += 1) {
      if (!zeros.told[i]) continue;
      const y = middle + zeros.y[i], at = x(zeros.tick[i]);
      context.fillStyle = zeros.met[i] ? colours.lines.met : colours.lines.away;
      if (zeros.met[i]) context.fillRect(at - 2, y - 2, 4, 4);
      else {
        context.fillRect(at - 0.5, Math.min(y, middle), 1, Math.abs(y - middle));
        context.fillRect(at - 2, y - 2, 4, 4);
      }
    }
    return undefined;
  }

  /* Many local zeros: in each column of pixels a line from the latest to the earliest. */
  function drawDense(row, low, high) {
    const { raster } = panel, { x } = View.state, zeros = row.cabinet.zeros;
    raster.need();
    const met = Raster.colour(colours.lines.met), away = Raster.colour(colours.lines.away);
    const middle = row.y + row.height / 2, part = Math.ceil(raster.ratio);
    for (let i = low; i < high; i += 1) {
      if (!zeros.told[i]) continue;
      const at = Math.round(x(zeros.tick[i]) * raster.ratio), y = middle + zeros.y[i];
      const top = Math.max(0, raster.line(Math.min(y, middle) - 1));
      const foot = Math.min(raster.height, raster.line(Math.max(y, middle) + 1));
      for (let line = top; line < foot; line += 1) {
        for (let dot = 0; dot < part; dot += 1) {
          if (at + dot < raster.width) raster.pixels[line * raster.width + at + dot] = zeros.met[i] ? met : away;
        }
      }
    }
  }

  function draw(context, it, isSeen) {
    for (const row of it.rows.rows.filter(isSeen)) {
      Modes.draw(context, row.cabinet, row.y, row.height, row.y + row.height - 6, row.height < 20);
      drawZeros(context, row);
    }
    it.raster.end(context);
    for (const row of it.rows.rows.filter(isSeen)) {
      Marks.draw(context, row.cabinet, row.y, row.height);
      if (row.cabinet.number !== View.state.cabinet) continue;
      context.strokeStyle = "#22262a";
      context.strokeRect(0.5, row.y - 0.5, View.state.width - 1, row.height + 1);
    }
  }

  function open() {
    place();
    const title = "All cabinets: mode and pattern, local zeros late (above) or early (below), marks";
    panel = new Panel("overview", title, plan, draw);
    const named = { ...Text.MODES, E: "ending (for flash)" }, { met, away } = colours.lines;
    const modes = Object.entries(named).map(([letter, words]) => [colours.modes[letter], letter, words]);
    const zeros = [[met, "·", "local zero on the offset", "#fff"], [away, "|", "local zero late or early", "#fff"]];
    const kinds = Object.entries(Marks.LETTERS).filter(([kind]) => kind !== "breach" || Data.head.judged);
    const marks = kinds.map(([kind, letter]) => [colours.marks[kind], letter, Marks.WORDS[kind], "#fff"]);
    Page.explain(panel, [...modes, ...zeros, ...marks]);
  }

  return { open };
})();
