/* Lanes: what a phase or a ring shows over time, as runs, and how a lane is drawn at any zoom.

Where runs have room they are drawn as bars with letters. Further out a column of pixels has many runs: it shows by
heights which share of its time was green, yellow change and red clearance. Sums before each run are kept, so that a
share costs the same at every zoom. */
const Lanes = (() => {
  const BROAD = 2;
  const kept = new Map();

  /* A lane out of what `shows(place)` gives for each frame: a code, and the phase that shows it. */
  function build(frames, shows) {
    const starts = [], codes = [], phases = [];
    for (let i = 0; i < frames.tick.length; i += 1) {
      const [code, phase] = shows(i), end = codes.length - 1;
      if (end >= 0 && codes[end] === code && (phases[end] === phase || code === 0)) continue;
      starts.push(frames.tick[i]);
      codes.push(code);
      phases.push(phase);
    }
    starts.push(Data.last);
    const [ticks, ...shown] = [Float64Array.from(starts), Uint8Array.from(codes), Uint8Array.from(phases)];
    return summed({ starts: ticks, codes: shown[0], phases: shown[1] });
  }

  function summed(lane) {
    lane.before = [1, 2, 3].map(code => {
      const sums = new Float64Array(lane.starts.length);
      for (let i = 0; i < lane.codes.length; i += 1) {
        sums[i + 1] = sums[i] + (lane.codes[i] === code ? lane.starts[i + 1] - lane.starts[i] : 0);
      }
      return sums;
    });
    return lane;
  }

  function once(key, make) {
    if (!kept.has(key)) kept.set(key, make());
    return kept.get(key);
  }

  /* The coordinated phase of a way (0 outbound, 1 inbound), as the pattern that runs has it. */
  function coordinated(cabinet, way) {
    return once(`${cabinet.number} way ${way}`, () => {
      let now = 0;
      return build(cabinet.frames, place => {
        while (now + 1 < cabinet.pairs.length && cabinet.pairs[now + 1][0] <= cabinet.frames.tick[place]) now += 1;
        const phase = cabinet.pairs[now][1 + way];
        return [Data.code(cabinet.frames.shown[place], phase - 1), phase];
      });
    });
  }

  /* The phases of a ring that are shown, by the tables in force from a tick on. */
  function members(cabinet, digits, number) {
    const phases = d3.range(1, 17).filter(phase => digits[phase - 1] === String(number));
    return phases.filter(phase => !cabinet.partners.includes(phase));
  }

  /* A ring (1, 2): the phase that is on; `walks` tells its pedestrian signals instead. */
  function ring(cabinet, number, walks) {
    return once(`${cabinet.number} ring ${number} ${walks}`, () => {
      const turns = cabinet.rings.map(([tick, digits]) => [tick, members(cabinet, digits, number)]);
      let now = 0;
      return build(cabinet.frames, place => {
        while (now + 1 < turns.length && turns[now + 1][0] <= cabinet.frames.tick[place]) now += 1;
        const shown = cabinet.frames.shown[place], shift = walks ? 15 : -1;
        const on = turns[now][1].find(phase => Data.code(shown, phase + shift));
        return on === undefined ? [0, 0] : [Data.code(shown, on + shift), on];
      });
    });
  }

  const run = (lane, tick) => Math.max(0, Math.min(Data.at(lane.starts, tick), lane.codes.length - 1));

  /* Whether runs have room to be drawn one by one. */
  const isFine = (lane, view) => run(lane, view.to) - run(lane, view.from) < view.width / 6;

  /* Calls `paint` for each run that is seen and not red: its code, its phase, and from where to where it is drawn. */
  function each(lane, view, paint) {
    for (let i = run(lane, view.from); i < lane.codes.length && lane.starts[i] < view.to; i += 1) {
      if (!lane.codes[i]) continue;
      const low = Math.max(0, view.x(lane.starts[i])), high = Math.min(view.width, view.x(lane.starts[i + 1]));
      paint(lane.codes[i], lane.phases[i], low, high);
    }
  }

  /* Ticks of a code before a moment that stands in run i. */
  function sum(lane, code, i, tick) {
    return lane.before[code - 1][i] + (lane.codes[i] === code ? tick - lane.starts[i] : 0);
  }

  /* Fills a stripe of a raster with shares: from the foot green, yellow change, red clearance, and red above.
  A share is that of two columns of pixels. */
  function shares(lane, view, raster, top, tall, colours) {
    const step = (view.to - view.from) / raster.width, final = lane.codes.length - 1, end = lane.starts[final + 1];
    const height = Math.round(tall * raster.ratio), foot = raster.line(top) + height, scale = height / step / BROAD;
    const before = new Float64Array(3), heights = new Float64Array(4).fill(height);
    let i = run(lane, view.from), tick = view.from;
    for (let code = 1; code < 4; code += 1) before[code - 1] = sum(lane, code, i, tick);
    for (let x = 0; x < raster.width; x += BROAD) {
      tick = Math.min(tick + BROAD * step, end);
      while (i < final && lane.starts[i + 1] <= tick) i += 1;
      for (let part = 0, reached = 0; part < 3; part += 1) {
        const now = sum(lane, part + 1, i, tick);
        heights[part] = reached += (now - before[part]) * scale;
        before[part] = now;
      }
      for (let at = x; at < Math.min(x + BROAD, raster.width); at += 1) pile(raster, at, foot, heights, colours);
    }
  }

  /* Fills a column of pixels upwards from a foot, as far as the raster goes: up to each height with its colour. */
  function pile({ pixels, width, height }, x, foot, heights, colours) {
    let y = Math.max(0, foot - height);
    for (let part = 0, at = (foot - 1 - y) * width + x; part < 4; part += 1) {
      const end = Math.min(foot, Math.round(heights[part])), colour = colours[part];
      for (; y < end; y += 1, at -= width) pixels[at] = colour;
    }
  }

  return { coordinated, ring, run, isFine, each, shares };
})();
