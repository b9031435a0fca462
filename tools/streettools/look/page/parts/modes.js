/* Modes side by side, with their words where they have room. */
const Modes = (() => {
  /* Draws a cabinet's modes at a height, and at another their words, or short what the trace has. A mode that ends in a
  column of pixels that has one is left to that. */
  function draw(context, cabinet, y, height, line, isShort = false) {
    const { from, x, to, width } = View.state, { tick, mode } = cabinet.modes;
    let reached = -1;
    for (let i = Math.max(0, Data.at(tick, from)); i < mode.length && tick[i] < to; i += 1) {
      const low = Math.max(0, x(tick[i])), high = Math.min(width, x(tick[i + 1]));
      if (high - reached < 1) continue;
      const text = Data.head.texts.modes[mode[i]];
      context.fillStyle = Data.head.colours.modes[text[0]];
      context.fillRect(Math.max(low, reached), y, Math.max(1, high - low - 0.4), height);
      reached = high;
      const texts = [isShort ? text : Text.mode(text), text, text[0]];
      if (high - low > 12) within(context, texts, low, high, line, "#343a40", true);
    }
  }

  return { draw };
})();
