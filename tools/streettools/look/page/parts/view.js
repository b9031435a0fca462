/* What is looked at: from which tick to which, which cabinet, the street, the ruler. One zoom behaviour of D3 moves all
panels; whatever changes is drawn once before the browser shows its next picture. */
const View = (() => {
  const LEAST = 12;
  const whole = () => ({
    from: 0, to: Data.last, cabinet: 1, a: null, b: null, hit: null, find: "",
    street: Data.head.street, travel: Data.head.travel,
  });
  const state = { width: 800, printing: false };
  const areas = [], watchers = [];
  const scale = d3.scaleLinear();
  const zoom = d3.zoom();
  let due = false;

  const least = () => Math.min(LEAST, Data.last);

  function draw() {
    due = false;
    for (const watcher of watchers) watcher(state);
  }

  function changed() {
    if (!due) requestAnimationFrame(draw);
    due = true;
  }

  function set(change) {
    Object.assign(state, change);
    changed();
  }

  /* Takes over a transform of D3 for all panels. */
  function moved(transform) {
    for (const area of areas) area.__zoom = transform;
    const [from, to] = transform.rescaleX(scale).domain();
    set({ from: Math.max(0, from), to: Math.min(Data.last, to) });
  }

  /* Shows the ticks from one to another, as far as the run and the zoom go. */
  function go(from, to) {
    const length = Math.min(Data.last, Math.max(least(), to - from));
    const low = Math.max(0, Math.min(Data.last - length, (from + to - length) / 2));
    const transform = d3.zoomIdentity.scale(Data.last / length).translate(-scale(low), 0);
    moved(transform);
  }

  /* Zooms about a tick, or about the middle: a factor below 1 shows less. */
  function zoomed(factor, about = (state.from + state.to) / 2) {
    const length = Math.min(Data.last, Math.max(least(), (state.to - state.from) * factor));
    const low = about - (about - state.from) * length / (state.to - state.from);
    go(low, low + length);
  }

  function shifted(share) {
    const step = share * (state.to - state.from);
    const low = Math.max(0, Math.min(Data.last - (state.to - state.from), state.from + step));
    go(low, low + state.to - state.from);
  }

  /* Gives a panel's area of pictures the zoom by wheel, pinch and drag; with Shift a drag is left to the ruler. */
  function attach(area) {
    areas.push(area);
    d3.select(area).call(zoom).on("dblclick.zoom", null);
  }

  function resize(width) {
    state.width = width;
    scale.domain([0, Data.last]).range([0, width]);
    zoom.extent([[0, 0], [width, 100]]).translateExtent([[0, -Infinity], [width, Infinity]]);
    zoom.scaleExtent([1, Data.last / least()]);
    go(state.from, state.to);
  }

  function open() {
    Object.assign(state, whole());
    zoom.filter(() => !d3.event.shiftKey && !d3.event.ctrlKey && !d3.event.button);
    zoom.on("zoom", () => moved(d3.event.transform));
  }

  state.x = tick => (tick - state.from) / (state.to - state.from) * state.width;
  state.tick = x => state.from + x / state.width * (state.to - state.from);

  function watch(watcher) {
    watchers.push(watcher);
  }

  return { state, whole, open, set, changed, go, zoomed, shifted, attach, resize, draw, watch };
})();
