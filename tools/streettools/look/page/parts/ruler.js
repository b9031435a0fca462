/* The ruler between two moments: by a drag with Shift, or by its two ends. An end near a line of the cabinet under the
pointer is put on that line's tick. */
const Ruler = (() => {
  const NEAR = 5;

  /* The tick at a place of the picture, or that of a line of the cabinet near it. */
  function tick(x, number) {
    const exact = View.state.tick(x), ticks = Data.cabinet(number).frames.tick;
    const reach = NEAR * (View.state.to - View.state.from) / View.state.width, place = Data.at(ticks, exact);
    const near = [ticks[place], ticks[place + 1]].filter(it => it !== undefined && Math.abs(it - exact) < reach);
    const nearest = near.sort((one, other) => Math.abs(one - exact) - Math.abs(other - exact))[0];
    return Math.max(0, Math.min(Data.last, nearest === undefined ? Math.round(exact) : nearest));
  }

  /* Puts an end (a, b) at the pointer, or in the middle of what is seen. */
  function mark(end) {
    const middle = Math.round((View.state.from + View.state.to) / 2), { x, cabinet } = Pointer.state;
    View.set({ [end]: x === null ? middle : tick(x, cabinet) });
  }

  function watch(panel) {
    const drag = d3.drag().filter(() => d3.event.shiftKey && !d3.event.button).container(panel.area.node());
    const cabinet = () => Pointer.state.cabinet || View.state.cabinet;
    drag.on("start", () => View.set({ a: tick(d3.event.x, cabinet()), b: null }));
    drag.on("drag", () => View.set({ b: tick(d3.event.x, cabinet()) }));
    panel.area.call(drag);
  }

  function words({ a, b }) {
    if (a === null && b === null) return "";
    const one = a === null ? b : a;
    if (a === null || b === null) return `ruler: ${a === null ? "B" : "A"} at tick ${one} (${Text.time(one)})`;
    const length = Math.abs(b - a);
    const ends = `A tick ${a} (${Text.time(a)}), B tick ${b} (${Text.time(b)})`;
    return `ruler: ${ends}: ${Text.seconds(length)}, ${length} ticks`;
  }

  function draw(state) {
    const ends = [state.a, state.b].filter(it => it !== null), both = ends.length === 2 ? [d3.extent(ends)] : [];
    for (const panel of Panel.all) {
      const { height } = panel.rows;
      const inside = x => Math.max(0, Math.min(state.width, x));
      panel.ruler.selectAll("rect").data(both).join("rect").attr("height", height)
        .attr("x", it => inside(state.x(it[0]))).attr("width", it => inside(state.x(it[1])) - inside(state.x(it[0])));
      panel.ruler.selectAll("line").data(ends.filter(it => it >= state.from && it <= state.to)).join("line")
        .attr("x1", state.x).attr("x2", state.x).attr("y2", height);
    }
    d3.select("#ruler").text(words(state));
    d3.select("footer").classed("told", both.length > 0);
  }

  return { mark, watch, draw, clear: () => View.set({ a: null, b: null }) };
})();
