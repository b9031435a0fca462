/* The fields above the pictures: the cabinet whose rings are shown, the street's cabinets and its times of travel. */
const Fields = (() => {
  const field = id => document.getElementById(id);

  function fault(words) {
    d3.select("#fault").text(words).attr("hidden", words ? null : true);
  }

  /* Cabinets in order, as `1,2,3` or `1-8`; null where a text is none. */
  function cabinets(text) {
    const found = [], { length } = Data.head.cabinets;
    for (const part of text.split(",")) {
      const ends = /^\s*(\d{1,3})\s*(?:-\s*(\d{1,3})\s*)?$/.exec(part);
      if (!ends) return null;
      const low = Number(ends[1]), high = Number(ends[2] || low);
      found.push(...(low <= high ? d3.range(low, high + 1) : d3.range(low, high - 1, -1)));
    }
    const isThere = found.every(it => it >= 1 && it <= length);
    return isThere && new Set(found).size === found.length ? found : null;
  }

  /* Ticks of travel out of seconds: one number for all, or one from each cabinet to the next. Null where there is none,
  undefined where a text is no such. */
  function travels(text, count) {
    if (!text.trim()) return null;
    const found = text.split(",").map(it => Math.round(10 * Number(it.trim() || NaN)));
    if (found.some(it => !(it >= 0 && it <= 864000))) return undefined;
    const all = found.length === 1 ? Array(count - 1).fill(found[0]) : found;
    return all.length === count - 1 ? all : undefined;
  }

  /* Takes over the street that the fields name. */
  function taken() {
    const street = cabinets(field("street-cabinets").value), most = Data.head.cabinets.length;
    if (!street) return fault(`street: cabinets 1 to ${most} in order, each once, as 1,2,3 or 1-8`);
    const travel = travels(field("travel").value, street.length);
    const due = `seconds between ${street.length} cabinets are one number, or ${street.length - 1}`;
    if (travel === undefined) return fault(`travel: ${due}`);
    fault("");
    View.set({ street, travel });
    return Page.resize();
  }

  /* Ticks of travel as a text of seconds. */
  function seconds(travel) {
    if (!travel) return "";
    const isSame = travel.length > 1 && travel.every(it => it === travel[0]);
    return (isSame ? travel.slice(0, 1) : travel).map(it => it / 10).join(",");
  }

  function titled() {
    const { number, title, left_out: out } = Data.cabinet(View.state.cabinet);
    field("cabinet").value = String(number);
    const name = title === `Cabinet ${number}` ? `cabinet ${number}` : title;
    d3.select("#rings h2").text(`Rings of ${name}${out ? `; ${out}` : ""}`);
  }

  /* Fills the fields by the view. */
  function fill() {
    const { street, travel, find } = View.state, last = street[street.length - 1];
    const isRow = street.length > 2 && street.every((it, place) => it === street[0] + place);
    field("street-cabinets").value = isRow ? `${street[0]}-${last}` : street.join(",");
    field("travel").value = seconds(travel);
    field("find").value = find;
    titled();
  }

  return { fault, cabinets, travels, taken, fill, titled, seconds };
})();
