/* The view as the words behind # of a link, and back. */
const Link = (() => {
  let later = 0;

  function written({ from, to, cabinet, a, b, street, travel, find }) {
    const words = { from: Number(from.toFixed(2)), to: Number(to.toFixed(2)), cabinet, a, b };
    Object.assign(words, { street: street.join(","), travel: Fields.seconds(travel), find });
    const told = Object.entries(words).filter(([, value]) => value !== null && value !== "");
    return told.map(([key, value]) => `${key}=${encodeURIComponent(value)}`).join("&");
  }

  /* Shows what a link says; what it doesn't say, or says wrongly, is as when the page opens. */
  function open() {
    const words = new URLSearchParams(location.hash.slice(1)), view = View.whole();
    const number = (key, usual) => {
      const value = Number(words.get(key) || NaN);
      return Number.isFinite(value) ? value : usual;
    };
    const tick = key => (number(key, null) === null ? null : Math.max(0, Math.min(Data.last, Math.round(number(key)))));
    view.cabinet = Data.cabinet(number("cabinet", 1)) ? number("cabinet", 1) : 1;
    view.street = Fields.cabinets(words.get("street") || "") || view.street;
    if (words.has("travel")) view.travel = Fields.travels(words.get("travel"), view.street.length) || null;
    if (view.travel && view.travel.length !== view.street.length - 1) view.travel = null;
    View.set({ ...view, a: tick("a"), b: tick("b"), find: words.get("find") || "" });
    Fields.fill();
    Search.find(View.state.find, false);
    Page.resize();
    View.go(number("from", 0), number("to", Data.last));
  }

  function replace() {
    history.replaceState(null, "", `#${written(View.state)}`);
  }

  /* Lets the browser's address follow the view, once it rests. */
  function follow() {
    clearTimeout(later);
    later = setTimeout(() => View.state.printing || replace(), 150);
  }

  async function copy() {
    replace();
    try {
      await navigator.clipboard.writeText(location.href);
    } catch {
      window.prompt("A link that opens this view:", location.href);
    }
  }

  return { open, follow, copy };
})();
