/* Calls by the scenario's inputs: vehicles on detectors, buttons pressed, preempt inputs. */
const Calls = (() => {
  const kept = new Map();

  /* For each phase with calls, and each preempt: spans while an input is on, and presses. */
  function of(cabinet) {
    if (kept.has(cabinet.number)) return kept.get(cabinet.number);
    const found = new Map(), it = cabinet.calls;
    for (let i = 0; i < it.tick.length; i += 1) {
      const kind = Data.head.texts.calls[it.kind[i]], isPreempt = kind === "preempt";
      const key = `${isPreempt ? "preempt" : "phase"} ${it.number[i]}`;
      if (!found.has(key)) found.set(key, { isPreempt, number: it.number[i], spans: [], presses: [] });
      take(found.get(key), kind, it.tick[i], it.on[i]);
    }
    const rows = [...found.values()];
    rows.sort((one, other) => one.isPreempt - other.isPreempt || one.number - other.number);
    kept.set(cabinet.number, rows);
    return rows;
  }

  function take(row, kind, tick, on) {
    const open = row.spans[row.spans.length - 1];
    if (kind === "ped") row.presses.push(tick);
    else if (on && !(open && open[1] === Data.last && open[2])) row.spans.push([tick, Data.last, true]);
    else if (!on && open && open[2]) row.spans[row.spans.length - 1] = [open[0], tick, false];
  }

  /* Draws the calls of a row: bars while an input is on, lines where a button is pressed. */
  function draw(context, row) {
    const { from, to, x, width } = View.state;
    let reached = -1;
    const { preempt, call } = Data.head.colours.lines;
    context.fillStyle = row.isPreempt ? preempt : call;
    const first = d3.bisector(span => span[1]).left(row.spans, from);
    for (let i = first; i < row.spans.length && row.spans[i][0] < to; i += 1) {
      const low = Math.max(0, x(row.spans[i][0])), high = Math.min(width, x(row.spans[i][1]));
      if (high - reached < 0.5) continue;
      context.fillRect(low, row.y, Math.max(1, high - low), row.height);
      reached = high;
    }
    context.fillStyle = "#22262a";
    for (let i = d3.bisectLeft(row.presses, from); i < row.presses.length && row.presses[i] < to; i += 1) {
      const at = x(row.presses[i]);
      context.fillRect(at - 1, row.y, 2, row.height);
      if (to - from < 6000) within(context, ["P"], at + 2, at + 16, row.y + 6, "#22262a");
    }
  }

  return { of, draw };
})();
