/* Through bands: when a vehicle may start at one end of the street so as to meet green at each cabinet.

Outbound goes with ring 1's coordinated phases from the first cabinet to the last, inbound with ring 2's back again. */
const Bands = (() => {
  let kept = { key: "", ways: [] };

  /* A lane's greens, so many ticks earlier. */
  function greens(lane, delay) {
    const found = [];
    for (let i = 0; i < lane.codes.length; i += 1) {
      if (lane.codes[i] === 1) found.push([lane.starts[i] - delay, lane.starts[i + 1] - delay]);
    }
    return found;
  }

  /* What two rising lists of spans have in common. */
  function common(one, other) {
    const found = [];
    for (let i = 0, j = 0; i < one.length && j < other.length;) {
      const low = Math.max(one[i][0], other[j][0]), high = Math.min(one[i][1], other[j][1]);
      if (low < high) found.push([low, high]);
      if (one[i][1] < other[j][1]) i += 1; else j += 1;
    }
    return found;
  }

  /* How long after the start a vehicle is at each cabinet: outbound, and inbound. */
  function delays(travel) {
    const out = [0];
    for (const ticks of travel) out.push(out[out.length - 1] + ticks);
    const last = out[out.length - 1];
    return [out, out.map(ticks => last - ticks)];
  }

  /* The bands of both ways: spans of starts, and the delay at each cabinet. */
  function ways(street, travel) {
    const key = `${street}/${travel}`;
    if (kept.key === key) return kept.ways;
    const found = delays(travel).map((delay, way) => {
      const shown = street.map((number, place) => greens(Lanes.coordinated(Data.cabinet(number), way), delay[place]));
      return { spans: shown.reduce(common), delays: delay, most: d3.max(delay) };
    });
    kept = { key, ways: found };
    return found;
  }

  return { ways, delays };
})();
