/* Search: finds marks, modes, calls, preempt inputs and local zeros by their words, and moments by tick or time. */
const Search = (() => {
  const MOST = 20000, LISTED = 300;
  let hits = [], now = -1, sought = null;

  /* What can be found at a cabinet: each item's tick and words. */
  function* items(cabinet) {
    const { head } = Data;
    for (let i = 0; i < cabinet.marks.tick.length; i += 1) yield [cabinet.marks.tick[i], Marks.words(cabinet, i)];
    for (let i = 0; i < cabinet.modes.mode.length; i += 1) {
      yield [cabinet.modes.tick[i], `mode ${Text.mode(head.texts.modes[cabinet.modes.mode[i]])}`];
    }
    for (let i = 0; i < cabinet.calls.tick.length; i += 1) yield [cabinet.calls.tick[i], call(cabinet, i)];
    for (let i = 0; i < cabinet.zeros.tick.length; i += 1) {
      const words = cabinet.zeros.pickup[i] ? "pattern taken up, local zero" : "local zero";
      const deviation = Text.deviation(Data.error(cabinet, i));
      yield [cabinet.zeros.tick[i], `${words}, pattern ${cabinet.zeros.pattern[i]}, ${deviation}`];
    }
  }

  function call(cabinet, i) {
    const { kind, number, on } = cabinet.calls, name = Data.head.texts.calls[kind[i]];
    if (name === "ped") return `button ${number[i]} pressed`;
    const preempt = cabinet.preempts[number[i]] || `preempt ${number[i]}`;
    return `${name === "veh" ? `vehicle call ${number[i]}` : `${preempt} input`} ${on[i] ? "on" : "off"}`;
  }

  /* Takes a text apart: cabinets that it names, a moment, and the words that are left. */
  function asked(text) {
    let rest = text.toLowerCase().trim();
    const numbers = [];
    rest = rest.replace(/\bcab(?:inet)?s?\s*(\d+)\b/g, (_, number) => { numbers.push(Number(number)); return " "; });
    const tick = /^\s*tick\s+(\d+)\s*$/.exec(rest);
    const time = /^\s*(?:(\d+):)?(\d+):(\d\d)(?:\.(\d))?\s*$/.exec(rest);
    if (tick) return { numbers, tick: Number(tick[1]) };
    if (time) return { numbers, tick: moment(time) };
    return { numbers, tick: null, patterns: rest.split(/[\s,]+/).filter(Boolean).map(pattern) };
  }

  /* A word stands at the start of a word of what is found; a number is whole. */
  function pattern(word) {
    const end = /\d$/.test(word) ? "(?![0-9])" : "";
    return new RegExp(`(^|[^a-z0-9])${word.replace(/[^a-z0-9]/g, "\\$&")}${end}`);
  }

  /* The tick of a time as the axis writes it; of a time of day the seconds may be left out. */
  function moment([, hours, minutes, seconds, tenths]) {
    const isShort = Text.isDay() && hours === undefined;
    const parts = isShort ? [minutes, seconds, 0] : [hours || 0, minutes, seconds];
    const ticks = 36000 * Number(parts[0]) + 600 * Number(parts[1]) + 10 * Number(parts[2]) + Number(tenths || 0);
    if (!Text.isDay()) return ticks;
    return (ticks - Math.round(10 * Data.head.start) + 864000) % 864000;
  }

  /* The hits of what is asked, in the order of time. A cabinet whose name alone is asked for is a hit itself. */
  function among(cabinets, { numbers, tick, patterns }) {
    if (tick !== null) {
      const cabinet = numbers.length && cabinets.length ? cabinets[0].number : View.state.cabinet;
      return tick <= Data.last && cabinets.length ? [{ tick, cabinet, words: `tick ${tick}` }] : [];
    }
    const found = [];
    for (const { number: cabinet, title } of cabinets) {
      const name = title.toLowerCase().replace(/cabinet \d+/, "");
      const left = patterns.filter(pattern => !pattern.test(name));
      if (!left.length) found.push({ tick: null, cabinet, words: title });
      for (const [at, words] of left.length ? items(Data.cabinet(cabinet)) : []) {
        const isHit = found.length < MOST && left.every(pattern => pattern.test(words.toLowerCase()));
        if (isHit) found.push({ tick: at, cabinet, words });
      }
    }
    return found.sort((one, other) => one.tick - other.tick || one.cabinet - other.cabinet);
  }

  function found(text) {
    const it = asked(text), { cabinets } = Data.head;
    return among(it.numbers.length ? cabinets.filter(cabinet => it.numbers.includes(cabinet.number)) : cabinets, it);
  }

  /* Finds a text; with nothing to find, nothing is found. */
  function find(text, goes = true) {
    if (text === sought) return;
    sought = text;
    hits = text.trim() ? found(text) : [];
    now = -1;
    View.set({ find: text, hit: null });
    if (goes && hits.length) step(1);
    tell();
  }

  /* Shows the next hit, or the one before. */
  function step(by) {
    if (!hits.length) return;
    now = now < 0 ? (by > 0 ? 0 : hits.length - 1) : (now + by + hits.length) % hits.length;
    show(hits[now]);
    tell();
  }

  function show(hit) {
    const length = Math.min(View.state.to - View.state.from, 1800);
    Page.choose(hit.cabinet);
    if (hit.tick === null) return;
    View.set({ hit: hit.tick });
    View.go(hit.tick - length / 2, hit.tick + length / 2);
    Pointer.put(hit.tick, hit.cabinet);
  }

  function tell() {
    const many = hits.length === MOST ? `${MOST}+` : hits.length;
    const found = now < 0 ? `${many} found` : `${now + 1} of ${many}`;
    d3.select("#hit").text(sought && sought.trim() ? (hits.length ? found : "nothing") : "");
    const first = Math.max(0, Math.min(now - 3, hits.length - LISTED));
    const list = d3.select("#hits").attr("hidden", hits.length ? null : true);
    const lines = list.selectAll("li").data(hits.slice(first, first + LISTED)).join("li");
    const title = hit => Data.cabinet(hit.cabinet).title;
    lines.text(hit => (hit.tick === null ? hit.words : `${Text.time(hit.tick)} · ${title(hit)} · ${hit.words}`));
    lines.classed("now", (_, place) => first + place === now);
    lines.on("click", (_, place) => {
      now = first + place;
      show(hits[now]);
      tell();
    });
    const line = list.select("li.now").node();
    if (line) line.scrollIntoView({ block: "nearest" });
  }

  return { find, step };
})();
