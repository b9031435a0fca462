/* Times and lengths as texts. Ticks are 0.1 s; a run that began at a known time of day shows that time. */
const Text = (() => {
  const SIGNALS = ["red", "green", "yellow change", "red clearance"];
  const WALKS = ["don't walk", "walk", "flashing don't walk"];
  const MODES = { S: "start-up", F: "free", E: "ending", X: "flash", K: "seek", C: "coordinated", P: "preempt" };
  const STAGES = { e: "entry", t: "track", d: "dwell", x: "exit" };
  let began = null;

  const two = number => String(number).padStart(2, "0");

  /* The time since the start of the run, as minutes and seconds, from an hour on with hours before them. */
  function clock(ticks) {
    const tenths = ticks % 10, seconds = Math.floor(ticks / 10), minutes = Math.floor(seconds / 60);
    const rest = two(seconds % 60) + (tenths ? `.${tenths}` : "");
    return minutes >= 60 ? `${Math.floor(minutes / 60)}:${two(minutes % 60)}:${rest}` : `${minutes}:${rest}`;
  }

  /* The time of day, of whatever day. */
  function day(ticks) {
    const tenths = (Math.round(10 * began) + ticks) % 864000, seconds = Math.floor(tenths / 10);
    const rest = tenths % 10 ? `.${tenths % 10}` : "";
    return `${two(Math.floor(seconds / 3600))}:${two(Math.floor(seconds / 60) % 60)}:${two(seconds % 60)}${rest}`;
  }

  const time = ticks => (began === null ? clock(ticks) : day(ticks));
  const seconds = ticks => `${(ticks / 10).toFixed(1)} s`;

  /* A mode as it is written in a trace, in words. */
  function mode(text) {
    const [, letter, number, stage] = /^([A-Z])(\d*)([etdx]?)$/.exec(text);
    const which = letter === "C" || letter === "K" ? `pattern ${number}` : number;
    return [MODES[letter], which, STAGES[stage]].filter(Boolean).join(" ");
  }

  /* By how much a cycle begins late or early; an error of null isn't told by the tables. */
  function deviation(error) {
    if (error === null) return "not told";
    return error ? `${seconds(Math.abs(error))} ${error > 0 ? "late" : "early"}` : "on the offset";
  }

  /* Takes over the seconds from midnight at which the run began, or null. */
  function begin(start) {
    began = start;
  }

  return { SIGNALS, WALKS, MODES, time, seconds, mode, deviation, begin, isDay: () => began !== null };
})();
