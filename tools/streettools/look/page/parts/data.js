/* The page's data: columns of numbers, inflated as the page opens, and what they stand for.

A cabinet has for each table its columns; `tick` is a rising list of numbers, all others are typed arrays beside it. */
const Data = (() => {
  const head = JSON.parse(document.getElementById("head").textContent);
  const last = head.rounds * head.ticks;
  let codes = null;

  async function inflated(text) {
    if (!window.DecompressionStream) throw new Error("This browser is too old for this page: it can't inflate data.");
    const packed = await (await fetch(`data:application/octet-stream;base64,${text}`)).blob();
    const stream = packed.stream().pipeThrough(new DecompressionStream("deflate"));
    return new Uint8Array(await new Response(stream).arrayBuffer());
  }

  /* Numbers out of four planes of octets; `error` alone can be below 0. */
  function column(octets, at, count, field) {
    const found = field === "error" ? new Int32Array(count) : new Uint32Array(count);
    const second = at + count, third = second + count, fourth = third + count;
    for (let i = 0; i < count; i += 1) {
      found[i] = octets[at + i] | octets[second + i] << 8 | octets[third + i] << 16 | octets[fourth + i] << 24;
    }
    return found;
  }

  /* Ticks out of the steps between them. */
  function summed(steps) {
    const found = new Float64Array(steps.length);
    let tick = 0;
    for (let i = 0; i < steps.length; i += 1) found[i] = tick += steps[i];
    return found;
  }

  function unpack(octets) {
    let at = 0;
    for (const [name, fields] of Object.entries(head.fields)) {
      const counts = head.counts[name], count = d3.sum(counts);
      for (const field of fields) {
        const whole = column(octets, at, count, field);
        at += 4 * count;
        let from = 0;
        head.cabinets.forEach((cabinet, place) => {
          const part = whole.subarray(from, from += counts[place]);
          (cabinet[name] = cabinet[name] || {})[field] = field === "tick" ? summed(part) : part;
        });
      }
    }
  }

  /* For each text of signals a number for each of 16 phases, then for each of 16 walks. */
  function numbered(texts) {
    const found = new Uint8Array(32 * texts.length);
    texts.forEach((text, place) => {
      for (let i = 0; i < 16; i += 1) {
        found[32 * place + i] = "RGYC".indexOf(text[i]);
        found[32 * place + 16 + i] = "DWF".indexOf(text[17 + i]);
      }
    });
    return found;
  }

  /* The runs of one mode: first ticks, one more than there are modes, and the modes by their numbers. */
  function modes(frames) {
    const tick = [], mode = [];
    for (let i = 0; i < frames.tick.length; i += 1) {
      if (i && frames.mode[i] === frames.mode[i - 1]) continue;
      tick.push(frames.tick[i]);
      mode.push(frames.mode[i]);
    }
    return { tick: [...tick, last], mode };
  }

  async function open() {
    unpack(await inflated(document.getElementById("data").textContent));
    codes = numbered(head.texts.shown);
    for (const cabinet of head.cabinets) cabinet.modes = modes(cabinet.frames);
    document.getElementById("data").textContent = "";
  }

  /* The place of the last row at or before a tick, -1 where there is none. */
  const at = (ticks, tick) => d3.bisectRight(ticks, tick) - 1;

  /* A frame's line as it stands in the trace. */
  function line(cabinet, place) {
    const it = cabinet.frames;
    const shown = head.texts.shown[it.shown[place]], mode = head.texts.modes[it.mode[place]];
    const numbers = `${it.counter[place]} ${it.target[place]} ${it.version[place]}`;
    return `F ${cabinet.number} ${it.tick[place]} ${shown} ${mode} ${numbers}`;
  }

  /* By how many ticks a local zero is late or early, null where the tables don't tell. */
  const error = (cabinet, place) => (cabinet.zeros.told[place] ? cabinet.zeros.error[place] : null);
  const code = (shown, place) => codes[32 * shown + place];
  const cabinet = number => head.cabinets[number - 1];

  return { head, last, open, at, line, error, code, cabinet };
})();
