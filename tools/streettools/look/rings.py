"""The ring diagram of a cabinet: what both rings showed over some time, with barriers, modes and marks."""

from typing import NamedTuple

from matplotlib.lines import Line2D
from matplotlib.patches import Patch

from streettools.shared import answers
from streettools.shared.cabinet import changes, opened
from streettools.shared.trace_records import Answered, Ended, Frame, Input, RoundEnd

from . import pictures, strips
from .requests import Requests

COLOURS = {"G": pictures.GREEN, "Y": pictures.YELLOW, "C": pictures.CLEARANCE}
NAMES = {"G": "green", "Y": "yellow", "C": "red-clearance", "W": "walk", "F": "flashing"}
FLASHING = {"facecolor": pictures.WALK, "edgecolor": pictures.FLASHING, "hatch": "/////", "linewidth": 0}
ZERO, DOWNLOAD, PREEMPT, REQUEST = "#1864ab", "#862e9c", "#7048e8", "#0b7285"


class Span(NamedTuple):
    """What a phase showed, by its letter, from one tick to before another, and its ring then."""

    ring: int
    phase: int
    shows: str
    start: int
    end: int


class Seen:
    """What a ring diagram shows of a cabinet from one tick to another, collected as the trace is read."""

    def __init__(self, scenario, number, start, end, left_out):
        self.cabinet, self.start, self.end = opened(scenario, number), start, end
        self.left_out = left_out
        self.modes = strips.Modes(start, end)
        self.last, self.side = 0, None
        self.spans, self.barriers, self.zeros, self.downloads, self.inputs = [], [], [], [], []
        self.since, self.calls, self.requests = {}, {}, Requests(self.cabinet)

    def within(self, tick):
        """Returns whether a tick is looked at."""
        return self.start <= tick <= self.end

    def take(self, happening):
        """Takes over what happened at the cabinet."""
        match happening:
            case Frame():
                self.shown(happening)
            case Input(kind="preempt"):
                self.called(happening)
            case Answered(digits=str() as digits):
                for order in answers.orders(digits):
                    self.requests.ordered(order, happening.tick)
            case Ended(tick=tick, load=load):
                self.cabinet.ended(load)
                text = f"refused by rule {load.rule}" if load.version is None else f"version {load.version}"
                if self.within(tick):
                    self.downloads.append((tick, f"download {text}"))
            case RoundEnd():
                self.last = happening.tick

    def called(self, item):
        """Keeps when a preempt's input went on and off."""
        if item.on:
            self.calls.setdefault(item.number, item.tick)
        elif item.number in self.calls:
            self.inputs.append((item.number, self.calls.pop(item.number), item.tick))

    def shown(self, frame):
        """Takes over a frame: what differs from the frame before ends here, and something else begins."""
        before = self.cabinet.frame
        if before is not None:
            cycle = self.cabinet.cycle(frame)
            if cycle and self.within(cycle.tick):
                self.zeros.append(cycle)
            self.crossed(before, frame)
        self.modes.shown(frame)
        for phase, _, shows in changes(before.vehicles if before else "R" * 16, frame.vehicles):
            self.begin("vehicle", phase, shows, frame.tick)
        for phase, _, shows in changes(before.pedestrians if before else "D" * 16, frame.pedestrians):
            self.begin("pedestrian", phase, shows, frame.tick)
        self.cabinet.shown(frame)

    def crossed(self, before, frame):
        """Notes a barrier where a phase of another side turns green."""
        for phase, _, shows in changes(before.vehicles, frame.vehicles):
            if shows == "G":
                side = self.cabinet.side(phase)
                if self.side not in (None, side) and self.within(frame.tick):
                    self.barriers.append(frame.tick)
                self.side = side

    def begin(self, kind, phase, shows, tick):
        """Ends what was shown before, where it differs, and begins what is shown now."""
        before, since = self.since.get((kind, phase), ("R", 0))
        if before == shows:
            return
        self.since[kind, phase] = (shows, tick)
        if before not in "RD" and since < self.end and tick > self.start and phase not in self.left_out:
            ring = self.cabinet.tables.phase(phase, 22)
            self.spans.append(Span(ring, phase, before, max(since, self.start), min(tick, self.end)))

    def close(self):
        """Ends at the end of the trace what is shown then."""
        self.end = max(self.start + 1, min(self.end, self.last))
        for kind, phase in list(self.since):
            self.begin(kind, phase, "R", self.end)
        self.modes.close(self.end)
        self.inputs += [(number, since, self.last) for number, since in self.calls.items()]
        self.inputs = self.cut(self.inputs)
        self.asked = self.cut([((it.number, it.phase), it.since, it.last) for it in self.requests.all])
        return self

    def cut(self, spans):
        """Returns spans (what they are of, first tick, end) within the time that is looked at."""
        found = [(it, max(since, self.start), min(end, self.end)) for it, since, end in spans]
        return [it for it in found if it[1] < it[2]]


def collect(reader, number, start, end, left_out):
    """Reads the trace and returns what is seen of a cabinet, but for the phases that are left out."""
    seen = Seen(reader.scenario, number, start, end, left_out)
    for happening in reader.happenings():
        if isinstance(happening, RoundEnd) or happening.cabinet == number:
            seen.take(happening)
    return seen.close()


def draw_ring(axes, seen, ring, low, names):
    """Draws a ring's bars in the unit of height above `low`: colours, in the green pedestrian signals and the phase."""
    spans = [it for it in seen.spans if it.ring == ring]
    by_letter = {letter: [(it.start, it.end) for it in spans if it.shows == letter] for letter in NAMES}
    pictures.bars(axes, [(seen.start, seen.end)], low, 0.8, f"ring-{ring}-red", color=pictures.RED)
    for letter, name in NAMES.items():
        group = f"ring-{ring}-{name}"
        if letter in COLOURS:
            look = {"facecolor": COLOURS[letter], "edgecolor": "white", "linewidth": 0.4}
            pictures.bars(axes, by_letter[letter], low, 0.8, group, **look)
        else:
            pictures.bars(
                axes,
                by_letter[letter],
                low + 0.07,
                0.2,
                group,
                **(FLASHING if letter == "F" else {"facecolor": "white"}),
            )
    for it in spans:
        space = pictures.room(axes, it.start, it.end)
        words = (f"{it.phase} {names.phase(seen.cabinet.number, it.phase)}".strip(), str(it.phase))
        label = next((text for text in words if pictures.width_of(text, 10) < space), None)
        if it.shows == "G" and label:
            height = low + (0.52 if by_letter["W"] or by_letter["F"] else 0.4)
            axes.text((it.start + it.end) / 20, height, pictures.escaped(label), color="white", ha="center",
                      va="center_baseline", fontsize=10, fontweight="bold")  # fmt: skip


def draw_marks(axes, seen, top):
    """Draws barriers, local zeros and downloads over both rings."""
    if seen.barriers:
        axes.vlines(
            [tick / 10 for tick in seen.barriers], 0.9, 2.9, color=pictures.INK, linewidth=2.2, zorder=3, gid="barriers"
        )
    if seen.zeros:
        places = [cycle.tick / 10 for cycle in seen.zeros]
        axes.vlines(places, 0.88, top, color=ZERO, linewidth=1, linestyle=(0, (4, 3)), zorder=3, gid="local-zeros")
        for x in places:
            axes.text(x, top, "0", ha="center", va="bottom", fontsize=8, color=ZERO)
    for place, (tick, text) in enumerate(seen.downloads):
        x, height = tick / 10, top + 0.42 + 0.26 * (place % 2)
        axes.plot([x, x], [0.9, height], color=DOWNLOAD, linewidth=1, gid=f"download-{tick}")
        late = tick > seen.start + 0.75 * (seen.end - seen.start)
        axes.text(x, height, f" {text} ", ha="right" if late else "left", va="center", fontsize=8, color=DOWNLOAD)


def legend(drawn, seen):
    """Explains what the picture has."""
    found = {it.shows for it in seen.spans}
    keys = [Patch(color=COLOURS[letter], label=NAMES[letter].replace("-", " ")) for letter in COLOURS]
    keys.append(Patch(color=pictures.RED, label="red"))
    if "W" in found:
        keys.append(Patch(facecolor=pictures.WALK, edgecolor=pictures.FAINT, linewidth=0.6, label="walk"))
    if "F" in found:
        keys.append(Patch(**FLASHING, label="flashing don't walk"))
    if seen.barriers:
        keys.append(Line2D([], [], color=pictures.INK, linewidth=2.2, label="barrier crossed"))
    if seen.zeros:
        keys.append(Line2D([], [], color=ZERO, linewidth=1, linestyle=(0, (4, 3)), label="local zero"))
    pictures.legend(drawn, keys)


def draw(seen, path, names, began=None):
    """Draws the ring diagram and writes it; a row for each preempt whose input went on, and for each priority
    request."""
    cabinet = seen.cabinet.number
    numbers, asked = ({it for it, _, _ in spans} for spans in (seen.inputs, seen.asked))
    rows = [(f"preempt-input-{it}", f"{names.preempt(cabinet, it)} input", seen.inputs, it) for it in sorted(numbers)]
    rows += [(f"request-{it[0]}-{it[1]}", f"request {it[0]}, phase {it[1]}", seen.asked, it) for it in sorted(asked)]
    tall = 3.2 + 0.22 * len(rows) + 0.25 * bool(seen.downloads)
    title = f"{names.cabinet(cabinet)}: rings, ticks {seen.start} to {seen.end}"
    shown = {it.phase for it in seen.spans}
    words = [label for _, label, _, _ in rows]
    drawn, (axes,) = pictures.figure(tall, title, under=names.key(cabinet, shown), labels=words)
    pictures.time_axis(axes, seen.start, seen.end, began)
    draw_ring(axes, seen, 1, 2.0, names)
    draw_ring(axes, seen, 2, 1.0, names)
    strips.draw(axes, seen.modes.spans, 0.45, 0.36)
    lows = [0.2 - 0.28 * place for place in range(len(rows))]
    for low, (group, _, spans, number) in zip(lows, rows):
        shown = [(since, end) for it, since, end in spans if it == number]
        pictures.bars(axes, shown, low, 0.16, group, facecolor=PREEMPT if group.startswith("p") else REQUEST)
    top = 3.0
    draw_marks(axes, seen, top)
    axes.set_ylim(min(lows, default=0.42) - 0.12, top + (0.85 if seen.downloads else 0.3))
    labels = {2.4: "ring 1", 1.4: "ring 2", 0.63: "mode"}
    labels |= {low + 0.08: pictures.escaped(text) for low, text in zip(lows, words)}
    axes.set_yticks(list(labels), list(labels.values()))
    axes.tick_params(axis="y", length=0)
    axes.spines["left"].set_visible(False)
    legend(drawn, seen)
    pictures.save(drawn, path)
