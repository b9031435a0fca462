/* The page as a whole: it opens the data, lays the panels out, follows the fields, the link and the printer. */
const Page = (() => {
  const PRINTED = 1040, FINE = 2;

  /* Explains colours and letters over a panel: colour, letter, words, and the letter's colour. */
  function explain(panel, keys) {
    const items = panel.legend.selectAll("span").data(keys).join("span");
    items.append("i").style("background", key => key[0]).style("color", key => key[3]).text(key => key[1] || "\u00a0");
    items.append("span").text(key => key[2]);
  }

  function resize() {
    const { printing } = View.state;
    const width = printing ? PRINTED : document.querySelector("main").clientWidth;
    View.resize(Math.max(200, width - LEFT - RIGHT));
    for (const panel of Panel.all) panel.resize(width, printing ? FINE : window.devicePixelRatio || 1);
    View.changed();
  }

  /* Shows a cabinet's rings. */
  function choose(number) {
    if (!number || number === View.state.cabinet) return;
    View.set({ cabinet: number });
    Fields.titled();
    resize();
  }

  function jump(id) {
    document.getElementById(id).scrollIntoView();
  }

  function printing(isPrinting) {
    View.set({ printing: isPrinting });
    resize();
    View.draw();
  }

  function draw(state) {
    const head = document.querySelector("header").getBoundingClientRect().bottom;
    const foot = document.querySelector("footer").getBoundingClientRect().top;
    for (const panel of Panel.all) panel.place([head, foot]);
    for (const panel of Panel.all) {
      panel.draw();
      panel.follow(state.hit);
    }
    Ruler.draw(state);
    Pointer.follow();
    Link.follow();
  }

  function listen() {
    const on = (id, event, does) => document.getElementById(id).addEventListener(event, does);
    const clicks = {
      before: () => Search.step(-1), after: () => Search.step(1), in: () => View.zoomed(0.5), out: () => View.zoomed(2),
      whole: () => View.go(0, Data.last), "mark-a": () => Ruler.mark("a"), "mark-b": () => Ruler.mark("b"),
      link: Link.copy, print: () => window.print(), help: Keys.help,
    };
    for (const [id, does] of Object.entries(clicks)) on(id, "click", does);
    d3.selectAll("button[data-panel]").on("click", function click() { jump(this.dataset.panel); });
    on("find", "change", event => Search.find(event.target.value));
    on("find", "keydown", event => { if (event.key === "Enter") Search.step(event.shiftKey ? -1 : 1); });
    on("cabinet", "change", event => choose(Number(event.target.value)));
    for (const id of ["street-cabinets", "travel"]) on(id, "change", Fields.taken);
    document.addEventListener("keydown", Keys.pressed);
    const events = { resize, scroll: View.changed, hashchange: Link.open };
    Object.assign(events, { beforeprint: () => printing(true), afterprint: () => printing(false) });
    for (const [event, does] of Object.entries(events)) window.addEventListener(event, does);
  }

  async function open() {
    await Data.open();
    const { head } = Data;
    Text.begin(head.start);
    d3.select("h1").text(head.title);
    const choices = d3.select("#cabinet").selectAll("option").data(head.cabinets).join("option");
    choices.attr("value", it => it.number).text(it => it.title);
    View.open();
    for (const part of [Overview, Street, Rings]) part.open();
    for (const panel of Panel.all) {
      Pointer.watch(panel);
      Ruler.watch(panel);
    }
    View.watch(draw);
    listen();
    Link.open();
    document.body.dataset.open = String(Math.round(performance.now()));
  }

  return { open, explain, choose, jump, resize };
})();

Page.open().catch(reason => Fields.fault(`This page can't be shown: ${reason.message || reason}`));
