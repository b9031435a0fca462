/* What the keys do. */
const Keys = (() => {
  const box = id => document.getElementById(id);
  const another = by => Page.choose(Math.max(1, Math.min(Data.head.cabinets.length, View.state.cabinet + by)));
  const KEYS = [
    [["ArrowLeft"], "←", "earlier", () => View.shifted(-0.15)],
    [["ArrowRight"], "→", "later", () => View.shifted(0.15)],
    [["+", "="], "+", "zoom in about the pointer", () => zoom(0.5)],
    [["-"], "-", "zoom out", () => zoom(2)],
    [["0"], "0", "the whole run", () => View.go(0, Data.last)],
    [["Home"], "Home", "the start of the run", () => View.go(0, View.state.to - View.state.from)],
    [["End"], "End", "the end of the run", () => View.go(Data.last - (View.state.to - View.state.from), Data.last)],
    [["t"], "t", "down to twelve ticks", () => View.go(centre() - 6, centre() + 6)],
    [["1"], "1", "to all cabinets", () => Page.jump("overview")],
    [["2"], "2", "to the street", () => Page.jump("street")],
    [["3"], "3", "to the rings", () => Page.jump("rings")],
    [["["], "[", "the cabinet before", () => another(-1)],
    [["]"], "]", "the next cabinet", () => another(1)],
    [["/", "f"], "/", "find", () => box("find").focus()],
    [["n"], "n", "the next hit", () => Search.step(1)],
    [["N"], "Shift+n", "the hit before", () => Search.step(-1)],
    [["a"], "a", "one end of the ruler", () => Ruler.mark("a")],
    [["b"], "b", "the other end", () => Ruler.mark("b")],
    [["Escape"], "Esc", "no ruler, no hit", () => View.set({ a: null, b: null, hit: null })],
    [["p"], "p", "print, or save as PDF", () => window.print()],
    [["?"], "?", "these keys", () => help()],
  ];
  const MORE = [
    ["wheel, pinch", "zoom"], ["drag", "earlier or later"], ["Shift+drag", "ruler"],
    ["click", "shows a cabinet's rings"],
  ];

  function centre() {
    const { from, to } = View.state, at = Pointer.state.tick;
    return at !== null && at >= from && at <= to ? at : (from + to) / 2;
  }

  const zoom = factor => View.zoomed(factor, centre());

  function help() {
    const keys = d3.select("#keys"), isHidden = keys.attr("hidden") !== null;
    keys.attr("hidden", isHidden ? null : true);
    const lines = [...KEYS.map(([, key, words]) => [key, words]), ...MORE];
    keys.selectAll("div").data(lines).join("div").html(([key, words]) => `<kbd>${key}</kbd>${words}`);
  }

  function pressed(event) {
    if (event.ctrlKey || event.metaKey || event.altKey) return;
    if (["INPUT", "SELECT"].includes(document.activeElement.tagName)) {
      if (event.key !== "Escape") return;
      event.preventDefault();
      document.activeElement.blur();
      return;
    }
    const found = KEYS.find(([keys]) => keys.includes(event.key));
    if (!found) return;
    event.preventDefault();
    found[3]();
  }

  return { pressed, help, zoom };
})();
