// What all parts of the page use: what is known, elements, times, numbers.
"use strict";

const known = {
  state: null, facts: null, shown: {}, base: {}, checks: [], measures: null, mark: 0, moved: 0, drag: null,
  view: null, isChosen: false,
};
const by = (id) => document.getElementById(id);

function made(kind, classes, text) {
  const it = document.createElement(kind);
  if (classes) it.className = classes;
  if (text !== undefined) it.textContent = text;
  return it;
}

function put(element, text) {
  if (element.textContent !== text) element.textContent = text;
}

function modulo(number, base) {
  return ((number % base) + base) % base;
}

function within(number, least, most) {
  return Math.max(least, Math.min(most, number));
}

function seconds(ticks) {
  return `${Math.round(ticks) / 10} s`;
}

// A time of day of ticks since midnight.
function clock(ticks) {
  const all = Math.floor(modulo(ticks, 864000) / 10);
  return [Math.floor(all / 3600), Math.floor(all / 60) % 60, all % 60].map((it) => String(it).padStart(2, "0")).join(":");
}

function ticksOf(text) {
  const parts = text.split(":").map(Number);
  return 10 * ((parts[0] || 0) * 3600 + (parts[1] || 0) * 60 + (parts[2] || 0));
}

// Returns a part of a drawing, made once: parts stay in the order in which they are made first.
function layer(svg, name) {
  return svg.selectAll(`g.${name}`).data([0]).join("g").attr("class", name);
}

// Calls a function with the event and the datum of each element: d3 gives events in another way in each of its versions.
function listen(selection, kind, does) {
  selection.each(function each(datum) {
    this[`on${kind}`] = (event) => does(event, datum);
  });
}

// Keeps the page from scrolling while something is dragged by touch: browsers don't do that for parts of a drawing.
function withoutScrolling(event) {
  event.preventDefault();
}

// Lets something be dragged: `begin` gives what is dragged or nothing, `move` takes it and the pixels of the way in
// terms of the drawing, `end` takes it at last.
function draggable(selection, begin, move, end) {
  selection.each(function each() {
    this.addEventListener("touchstart", withoutScrolling, { passive: false });
  });
  listen(selection, "pointerdown", (event, datum) => {
    if (event.button !== 0) return;
    const it = begin(datum, event);
    if (!it) return;
    event.preventDefault();
    event.stopPropagation();
    const svg = event.currentTarget.ownerSVGElement;
    const scale = svg.viewBox.baseVal.width / Math.max(1, svg.clientWidth);
    const from = event.clientX;
    known.drag = it;
    const moves = (other) => {
      if (other.pointerId === event.pointerId) move(it, (other.clientX - from) * scale);
    };
    const ends = (other) => {
      if (other.pointerId !== event.pointerId) return;
      window.removeEventListener("pointermove", moves);
      window.removeEventListener("pointerup", ends);
      window.removeEventListener("pointercancel", ends);
      known.drag = null;
      end(it, (other.clientX - from) * scale, other.type === "pointercancel");
    };
    window.addEventListener("pointermove", moves);
    window.addEventListener("pointerup", ends);
    window.addEventListener("pointercancel", ends);
  });
}

// The step in seconds that a key asks for, 0 for another key.
function stepOf(event) {
  const steps = { ArrowRight: 1, ArrowUp: 1, ArrowLeft: -1, ArrowDown: -1, PageUp: 5, PageDown: -5 };
  return event.ctrlKey || event.metaKey || event.altKey ? 0 : steps[event.key] || 0;
}
