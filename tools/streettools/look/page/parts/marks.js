/* Marks: what the master notes, what became of downloads, refused Sets, clocks that were set, priority requests; and in a
log that was judged, breaches. */
const Marks = (() => {
  const LETTERS = { note: "N", accepted: "D", refused: "R", clock: "T", priority: "B", breach: "!" };
  const WORDS = {
    note: "master's note", accepted: "download accepted", refused: "refused", clock: "clock set",
    priority: "priority request", breach: "breach of the plan",
  };
  const ORDER = ["breach", "refused", "accepted", "clock", "priority", "note"];
  const kind = (cabinet, place) => Data.head.texts.kinds[cabinet.marks.kind[place]];
  const words = (cabinet, place) => Data.head.texts.words[cabinet.marks.words[place]];

  /* Draws a cabinet's marks at a height: lines, letters where they have room, and words beside them where asked. */
  function draw(context, cabinet, y, height, withWords = false) {
    const { from, to, x, width } = View.state, ticks = cabinet.marks.tick;
    const low = Data.at(ticks, from - 1) + 1, high = Data.at(ticks, to) + 1, room = Math.min(12, height);
    drawLines(context, cabinet, low, high, y, height);
    for (const i of lettered(cabinet, low, high)) {
      const at = x(ticks[i]), end = i + 1 < high ? x(ticks[i + 1]) - 6 : width;
      context.fillStyle = Data.head.colours.marks[kind(cabinet, i)];
      context.fillRect(at - 5.5, y, 11, room);
      within(context, [LETTERS[kind(cabinet, i)]], at - 9, at + 9, y + room / 2 + 0.5, "#fff");
      if (withWords) within(context, [words(cabinet, i)], at + 5, end, y + height / 2, "#22262a", true);
    }
  }

  /* The marks whose letters have room: refusals before all others, notes last. Of many marks only downloads,
  refusals and breaches have letters. */
  function lettered(cabinet, low, high) {
    const { x, width } = View.state, taken = new Map(), found = [];
    const isFree = (at, slot) => [slot - 1, slot, slot + 1].every(it => !(Math.abs(taken.get(it) - at) < 11));
    for (const name of high - low > width / 30 ? ORDER.slice(0, 3) : ORDER) {
      for (let i = low; i < high; i += 1) {
        const at = x(cabinet.marks.tick[i]), slot = Math.floor(at / 11);
        if (kind(cabinet, i) !== name || !isFree(at, slot)) continue;
        taken.set(slot, at);
        found.push(i);
      }
    }
    return found;
  }

  /* A line for each mark; of many in a column of pixels the first stands, and each refusal and breach. */
  function drawLines(context, cabinet, low, high, y, height) {
    let last = -Infinity;
    for (let i = low; i < high; i += 1) {
      const at = View.state.x(cabinet.marks.tick[i]), name = kind(cabinet, i);
      if (at - last < 1 && name !== "refused" && name !== "breach") continue;
      last = at;
      context.fillStyle = Data.head.colours.marks[name];
      context.fillRect(at - 0.75, y, 1.5, height);
    }
  }

  /* The places of a cabinet's marks within so many ticks of a tick. */
  function near(cabinet, tick, reach) {
    const ticks = cabinet.marks.tick;
    return d3.range(Data.at(ticks, tick - reach) + 1, Data.at(ticks, tick + reach) + 1);
  }

  return { LETTERS, WORDS, draw, near, kind, words };
})();
