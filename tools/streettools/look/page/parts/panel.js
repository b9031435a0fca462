/* A panel: labels at its left, a time axis above, a picture on a canvas, and over it what follows the pointer.

`plan()` gives the rows: their `y`, `height` and `label`, and the height of all. `draw(context, panel, isSeen)` draws
those that are seen. */
const LEFT = 168, TOP = 20, RIGHT = 26, LINE = 12;

/* The lines of a label, each as wide as fits, and no more than have room: the last has all that is left. */
function linesOf(node, label, most, count) {
  const lines = [""];
  for (const word of label.split(/(?<= )/)) {
    const longer = lines[lines.length - 1] + word;
    node.textContent = longer.trimEnd();
    if (lines.length < count && longer !== word && node.getComputedTextLength() > most) lines.push(word);
    else lines[lines.length - 1] = longer;
  }
  return lines;
}

/* Writes the label of a row whole: in several lines if it is long, and narrower if a line is still too long. */
function writeLabel(node, row) {
  const text = d3.select(node), most = LEFT - 16, middle = row.y + row.height / 2;
  const lines = linesOf(node, row.label, most, Math.max(1, Math.floor((row.height + 4) / LINE)));
  text.text(null);
  lines.forEach((line, place) => {
    const part = text.append("tspan").attr("x", LEFT - 8).attr("dy", "0.34em").text(line);
    part.attr("y", middle + (place - (lines.length - 1) / 2) * LINE);
    if (part.node().getComputedTextLength() > most) {
      part.attr("textLength", most).attr("lengthAdjust", "spacingAndGlyphs");
    }
  });
}

class Panel {
  static all = [];

  constructor(id, title, plan, draw) {
    Object.assign(this, { id, plan, picture: draw });
    const section = d3.select("main").append("section").attr("id", id);
    section.append("h2").text(title);
    this.legend = section.append("div").attr("class", "legend");
    this.plot = section.append("div").attr("class", "plot");
    this.canvas = this.plot.append("canvas").node();
    this.svg = this.plot.append("svg");
    this.labels = this.svg.append("g").attr("class", "labels").attr("transform", `translate(0,${TOP})`);
    this.axis = this.svg.append("g").attr("transform", `translate(${LEFT},${TOP})`);
    this.over = this.svg.append("g").attr("class", "over").attr("transform", `translate(${LEFT},${TOP})`);
    this.area = this.over.append("rect").attr("class", "area");
    this.ruler = this.over.append("g").attr("class", "ruler");
    this.hit = this.over.append("line").attr("class", "hit").attr("visibility", "hidden");
    this.cursor = this.over.append("line").attr("class", "cursor").attr("visibility", "hidden");
    this.raster = new Raster();
    View.attach(this.area.node());
    Panel.all.push(this);
  }

  /* Takes over the width of the page and the rows. The canvas is no taller than the window: it moves along. */
  resize(width, ratio) {
    this.rows = this.plan();
    this.ratio = ratio;
    this.whole = this.rows.height + TOP + 2;
    this.tall = View.state.printing ? this.whole : Math.min(this.whole, window.innerHeight);
    this.plot.style("height", `${this.whole}px`).style("width", `${width}px`);
    this.svg.attr("width", width).attr("height", this.whole);
    Object.assign(this.canvas, { width: Math.round(width * ratio), height: Math.round(this.tall * ratio) });
    d3.select(this.canvas).style("width", `${width}px`).style("height", `${this.tall}px`);
    this.area.attr("width", width - LEFT - RIGHT).attr("height", this.rows.height);
    for (const line of [this.cursor, this.hit]) line.attr("y1", 0).attr("y2", this.rows.height);
    this.label();
  }

  label() {
    const texts = this.labels.selectAll("text").data(this.rows.rows.filter(row => row.label)).join("text");
    texts.attr("text-anchor", "end");
    texts.attr("class", row => `${row.pick ? "pick" : ""} ${row.chosen ? "chosen" : ""}`);
    texts.each(function write(row) { writeLabel(this, row); });
    texts.on("click", row => row.pick && row.pick());
  }

  /* Puts the canvas where the window shows the panel; tells how far below the panel's top it begins, and from which
  height of the rows to which they are seen between the head and the foot of the page. */
  place([head, foot]) {
    const above = View.state.printing ? 0 : -this.plot.node().getBoundingClientRect().top;
    this.top = Math.round(Math.max(0, Math.min(this.whole - this.tall, above)));
    this.low = View.state.printing ? 0 : Math.max(0, Math.floor(above + head - TOP));
    this.high = View.state.printing ? this.rows.height : Math.min(this.rows.height, Math.ceil(above + foot - TOP));
  }

  /* Shows where a hit stands. */
  follow(tick) {
    const { from, to, x } = View.state, isSeen = tick !== null && tick >= from && tick <= to;
    this.hit.attr("visibility", isSeen ? "visible" : "hidden").attr("x1", x(tick)).attr("x2", x(tick));
  }

  draw() {
    if (this.low >= this.high) return;
    const context = this.canvas.getContext("2d"), { width } = View.state, { ratio, top } = this;
    this.canvas.style.top = `${top}px`;
    context.setTransform(ratio, 0, 0, ratio, 0, 0);
    context.clearRect(0, 0, this.canvas.width, this.tall);
    context.translate(LEFT, TOP - top);
    context.save();
    context.beginPath();
    context.rect(0, 0, width, this.rows.height);
    context.clip();
    context.font = '11px "DejaVu Sans", Arial, Helvetica, sans-serif';
    context.textBaseline = "middle";
    this.raster.begin(width, this.low, this.high - this.low, ratio);
    this.picture(context, this, row => row.y <= this.high && row.y + row.height >= this.low);
    context.restore();
    drawAxis(this.axis);
  }
}

/* Pixels that are written one by one and then laid over a canvas: what has more parts than pixels is drawn so. */
class Raster {
  constructor() {
    this.canvas = document.createElement("canvas");
  }

  /* Begins a picture whose pixels stand from a height of the rows on. */
  begin(width, top, height, ratio) {
    Object.assign(this, { ratio, top, width: Math.round(width * ratio), height: Math.round(height * ratio) });
    this.pixels = null;
  }

  /* The line of pixels of a height of the rows. */
  line(y) {
    return Math.round((y - this.top) * this.ratio);
  }

  /* Makes room for pixels, once something is to be written. */
  need() {
    if (this.pixels) return;
    if (this.canvas.width !== this.width || this.canvas.height !== this.height) {
      Object.assign(this.canvas, { width: this.width, height: this.height });
      this.image = null;
    }
    this.image = this.image || this.canvas.getContext("2d").createImageData(this.width, this.height);
    this.pixels = new Uint32Array(this.image.data.buffer);
    this.pixels.fill(0);
  }

  /* Lays what was written over a picture. */
  end(context) {
    if (!this.pixels) return;
    this.canvas.getContext("2d").putImageData(this.image, 0, 0);
    context.drawImage(this.canvas, 0, this.top, this.width / this.ratio, this.height / this.ratio);
  }

  /* A colour as it is written into pixels. */
  static colour(text) {
    const { r, g, b } = d3.rgb(text);
    return (255 << 24 | b << 16 | g << 8 | r) >>> 0;
  }
}

/* How many ticks may lie between two marks of a time axis. */
const STEPS = [
  1, 2, 5, 10, 20, 50, 100, 150, 200, 300, 600, 1200, 3000, 6000, 9000, 18000, 36000, 72000, 108000, 216000,
];

/* A time axis in whole steps of the run, or of the day where its time is known. */
function drawAxis(group) {
  const { from, to, width } = View.state, room = width / 84, most = STEPS[STEPS.length - 1];
  const step = STEPS.find(it => (to - from) / it <= room) || most * Math.ceil((to - from) / room / most);
  const shift = Text.isDay() ? Math.round(10 * Data.head.start) % step : 0;
  const first = Math.ceil((from + shift) / step) * step - shift;
  const axis = d3.axisTop(d3.scaleLinear().domain([from, to]).range([0, width]));
  group.call(axis.tickValues(d3.range(first, to + 1e-6, step)).tickFormat(Text.time).tickSize(5));
}

const widths = new Map();

/* How wide a text is; each is measured once. */
function widthOf(context, text) {
  if (!widths.has(text)) widths.set(text, context.measureText(text).width);
  return widths.get(text);
}

/* Writes a text into a bar, the longest that has room: in its middle, or at its left. */
function within(context, texts, low, high, y, colour, isLeft = false) {
  const text = texts.find(it => it && widthOf(context, it) + 4 < high - low);
  if (!text) return;
  context.fillStyle = colour;
  context.textAlign = isLeft ? "left" : "center";
  context.fillText(text, isLeft ? low + 3 : (low + high) / 2, y);
}
