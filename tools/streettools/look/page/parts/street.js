/* The time-space diagram: the coordinated greens of a street's cabinets, and the bands through them. The first cabinet
stands at the foot; above its line is what goes outbound (ring 1), below it what goes inbound (ring 2). */
const Street = (() => {
  const TALL = 15, NAMES = ["outbound", "inbound"];
  const colours = Data.head.colours;
  const LETTERS = ["", "G", "Y", "C"];
  let panel = null, paints = [], pixels = [];

  /* How far from the first each cabinet stands: by the times of travel, where all have room so. */
  function places(street, travel) {
    const even = street.map((_, place) => place);
    if (!travel || !d3.sum(travel) || d3.min(travel) * street.length < 0.6 * d3.sum(travel)) return even;
    return Bands.delays(travel)[0].map(ticks => ticks / d3.min(travel));
  }

  function plan() {
    const { street, travel } = View.state, far = places(street, travel);
    const spacing = street.length > 8 ? 44 : 62, most = far[far.length - 1] * spacing + 2 * TALL + 10;
    const rows = street.map((number, place) => {
      const cabinet = Data.cabinet(number), middle = most - TALL - 5 - far[place] * spacing;
      const row = { y: middle - TALL, height: 2 * TALL, middle, cabinet, label: label(cabinet) };
      return { ...row, pick: () => Page.choose(number), chosen: number === View.state.cabinet };
    });
    return { rows, height: most };
  }

  function label(cabinet) {
    const pairs = cabinet.pairs.map(([, one, other]) => (one === other ? `${one}` : `${one}, ${other}`));
    return `${cabinet.title}: ${[...new Set(pairs)].join(" then ")}`;
  }

  function drawWay(context, row, way) {
    const lane = Lanes.coordinated(row.cabinet, way), top = way ? row.middle + 1 : row.middle - TALL;
    if (!Lanes.isFine(lane, View.state)) {
      panel.raster.need();
      Lanes.shares(lane, View.state, panel.raster, top, TALL - 1, pixels);
      return;
    }
    context.fillStyle = paints[0];
    context.fillRect(0, top, View.state.width, TALL - 1);
    Lanes.each(lane, View.state, (code, phase, low, high) => {
      context.fillStyle = paints[code];
      context.fillRect(low, top, Math.max(high - low, 0.7), TALL - 1);
      const letter = LETTERS[code], ink = code === 2 ? "#22262a" : "#fff";
      if (high - low > 9) within(context, [`${phase} ${letter}`, letter], low, high, top + TALL / 2, ink);
    });
  }

  /* Draws the bands that are seen; where they have less than a point of width they are left out. */
  function drawBands(context, rows, isSeen) {
    const { street, travel, from, to, x, width } = View.state;
    if (!travel) return;
    Bands.ways(street, travel).forEach(({ spans, delays, most }, way) => {
      const low = d3.bisector(span => span[1]).left(spans, from - most);
      const high = d3.bisector(span => span[0]).left(spans, to);
      const isTooMany = high - low > width / 8;
      const stops = corners(rows, delays, isSeen);
      for (let i = low; i < high && !isTooMany; i += 1) drawBand(context, stops, spans[i], way, x);
      if (isTooMany) note(context, way, high - low);
    });
  }

  function note(context, way, count) {
    context.fillStyle = colours.bands[NAMES[way]];
    context.textAlign = "left";
    context.fillText(`${count} ${NAMES[way]} bands: zoom in to see them`, 6, 8 + 14 * way);
  }

  /* Where a vehicle is at each cabinet: how long after its start, and at which height; of those that are seen, and of
  the next on either side. */
  function corners(rows, delays, isSeen) {
    const near = place => rows[place] && isSeen(rows[place]);
    const stops = rows.map((row, place) => [delays[place], row.middle]);
    return stops.filter((_, place) => near(place - 1) || near(place) || near(place + 1));
  }

  function drawBand(context, stops, [low, high], way, x) {
    if (stops.length < 2) return;
    context.beginPath();
    for (const [delay, y] of stops) context.lineTo(x(low + delay), y);
    for (const [delay, y] of [...stops].reverse()) context.lineTo(x(high + delay), y);
    context.globalAlpha = 0.26;
    context.fillStyle = colours.bands[NAMES[way]];
    context.fill();
    context.globalAlpha = 1;
    const [one, other] = way ? stops.slice(-2) : stops, far = (one[0] + other[0]) / 2;
    const share = stops.length > 2 ? 0.5 : way ? 0.35 : 0.65;
    const y = one[1] * (1 - share) + other[1] * share;
    const width = Text.seconds(high - low), texts = [`${way ? "in" : "out"} ${width}`, width];
    within(context, texts, x(low + far), x(high + far), y, "#22262a");
  }

  function draw(context, it, isSeen) {
    const rows = it.rows.rows;
    if (rows.length > 1) drawBands(context, rows, isSeen);
    for (const row of rows.filter(isSeen)) {
      drawWay(context, row, 0);
      drawWay(context, row, 1);
    }
    it.raster.end(context);
  }

  function open() {
    const { green, yellow, clearance, red } = colours.signals;
    paints = [red, green, yellow, clearance];
    pixels = [green, yellow, clearance, red].map(Raster.colour);
    const title = "Street: coordinated greens, outbound (ring 1) above each line, inbound (ring 2) below; bands";
    panel = new Panel("street", title, plan, draw);
    const clearances = [[yellow, "Y", "yellow change"], [clearance, "C", "red clearance", "#fff"], [red, "", "red"]];
    const letters = [[green, "G", "green", "#fff"], ...clearances];
    const bands = NAMES.map(name => [colours.bands[name], name[0] === "o" ? "out" : "in", `${name} band`, "#fff"]);
    Page.explain(panel, [...letters, ...bands, ["#fff", "", "far out: heights are shares of the time"]]);
  }

  return { open };
})();
