"""How a cabinet brings its offset about: where each cycle begins against its clock, and how long it is."""

from typing import NamedTuple

from matplotlib.collections import LineCollection
from matplotlib.lines import Line2D

from streettools.shared import answers
from streettools.shared.answers import ClockNamed
from streettools.shared.cabinet import DAY, mode_of, opened
from streettools.shared.trace_records import Answered, Ended, Frame, RoundEnd

from . import pictures, strips

MET, AWAY, TROUBLE, FAINT = pictures.GREEN, "#e8590c", "#c2255c", pictures.FAINT
WORDS = {"S": "start-up", "F": "free", "E": "flash", "X": "flash", "P": "preempt"}


class Disturbance(NamedTuple):
    """What takes a cabinet from its offset, or may: its tick, and a word for it."""

    tick: int
    word: str


class Seen:
    """The cycles of a cabinet and what disturbs them, from one tick to another."""

    def __init__(self, scenario, number, start, end):
        self.cabinet, self.start, self.end, self.last = opened(scenario, number), start, end, 0
        self.modes = strips.Modes(start, end)
        self.cycles, self.lengths, self.disturbances = [], [], []
        self.days = 0

    def within(self, tick):
        """Returns whether a tick is looked at."""
        return self.start <= tick <= self.end

    def disturb(self, tick, word):
        """Keeps a disturbance."""
        if self.within(tick):
            self.disturbances.append(Disturbance(tick, word))

    def take(self, happening):
        """Takes over what happened at the cabinet."""
        match happening:
            case Frame():
                self.shown(happening)
            case Ended(tick=tick, load=load):
                self.cabinet.ended(load)
                if load.version is not None:
                    self.disturb(tick, f"version {load.version}")
            case Answered(digits=str()):
                for order in answers.orders(happening.digits):
                    if isinstance(order, ClockNamed) and self.cabinet.clock.named(order.ticks, happening.tick):
                        self.disturb(happening.tick, "clock set")

    def shown(self, frame):
        """Takes over a frame: the mode, and the cycle that begins with it."""
        before = self.cabinet.frame
        self.modes.shown(frame)
        if before is not None:
            if before.mode != frame.mode:
                self.changed(mode_of(before.mode), mode_of(frame.mode), frame.tick)
            cycle = self.cabinet.cycle(frame)
            if cycle and self.within(cycle.tick):
                plan = self.cabinet.plan(cycle.pattern)
                self.cycles.append((cycle, plan.cycle if plan else None, self.cabinet.is_met(cycle)))
                self.midnight(frame.tick, plan)
        self.cabinet.shown(frame)

    def changed(self, before, mode, tick):
        """Notes a change to another pattern, or from patterns to what isn't one."""
        if mode.letter in "KC" and before.number != mode.number and before.letter in "KC":
            self.disturb(tick, f"pattern {mode.number}")
        elif (
            mode.letter in "SFEXP"
            and (mode.letter, mode.number) != (before.letter, before.number)
            and before.letter not in "S"
        ):
            if not (before.letter == "E" and mode.letter == "X"):
                self.disturb(tick, f"{WORDS[mode.letter]} {mode.number or ''}".strip())

    def midnight(self, tick, plan):
        """Notes that the clock passed midnight since the last cycle, where the cycle doesn't divide the day."""
        clock = self.cabinet.clock
        days = (clock.tick, (clock.value + tick - clock.tick) // DAY)
        if plan and DAY % plan.cycle and days[1] > (self.days[1] if self.days and self.days[0] == clock.tick else 0):
            self.disturb(clock.tick + DAY * days[1] - clock.value, "midnight")
        self.days = days

    def close(self):
        """Ends at the end of the trace what is looked at."""
        self.end = max(self.start + 1, min(self.end, self.last))
        self.modes.close(self.end)
        return self


def collect(reader, number, start, end):
    """Reads the trace and returns a cabinet's cycles and disturbances."""
    seen = Seen(reader.scenario, number, start, end)
    for happening in reader.happenings():
        if isinstance(happening, RoundEnd):
            seen.last = happening.tick
        elif happening.cabinet == number:
            seen.take(happening)
    return seen.close()


def draw_errors(axes, seen):
    """Draws by how many seconds each local zero comes late or early."""
    axes.axhline(0, color=MET, linewidth=1)
    told = [(cycle, met) for cycle, _, met in seen.cycles if cycle.error is not None]
    runs = []
    for cycle, _ in told:
        if cycle.pickup or not runs:
            runs.append([])
        runs[-1].append((cycle.tick / 10, cycle.error / 10))
    axes.add_collection(LineCollection(runs, color=FAINT, linewidth=1, zorder=1))
    for name, marker, size in (("pickup", "D", 40), ("zero", "o", 24)):
        for word, colour, met in (("met", MET, True), ("away", AWAY, False)):
            shown = [it for it, its in told if it.pickup == (name == "pickup") and its == met]
            if shown:
                axes.scatter([it.tick / 10 for it in shown], [it.error / 10 for it in shown], s=size, marker=marker,
                             zorder=3, color=colour, gid=f"{name}-{word}")  # fmt: skip
    axes.set_ylabel("local zero by the clock (s)\nabove 0 late, below 0 early")
    axes.margins(y=0.15)
    low, high = axes.get_ylim()
    axes.set_ylim(min(low, -2), max(high, 2))
    if not seen.cycles:
        axes.text(0.5, 0.6, "no cycle of a pattern begins here", transform=axes.transAxes, ha="center", color=FAINT)


def draw_lengths(axes, seen):
    """Draws each cycle from local zero to local zero, as high as it is long, beside the cycle of its pattern."""
    whole = [(cycle, due) for cycle, due, _ in seen.cycles if cycle.elapsed is not None and due is not None]
    rows = [
        ("due", [(it, due) for it, due in whole], {"color": FAINT, "linewidth": 1, "linestyle": (0, (4, 3))}),
        ("corrected", [(it, it.elapsed) for it, due in whole if it.elapsed != due], {"color": AWAY, "linewidth": 3}),
        ("plain", [(it, it.elapsed) for it, due in whole if it.elapsed == due], {"color": MET, "linewidth": 3}),
    ]
    for name, shown, look in rows:
        if shown:
            starts = [(it.tick - it.elapsed) / 10 for it, _ in shown]
            axes.hlines(
                [length / 10 for _, length in shown],
                starts,
                [it.tick / 10 for it, _ in shown],
                gid=f"cycles-{name}",
                **look,
            )
    axes.set_ylabel("cycle (s)")
    low, high = axes.get_ylim()
    axes.set_ylim(low - 2, high + 2)


def draw_disturbances(rows, seen):
    """Marks disturbances in all rows, with words over the first where they have room."""
    taken = [float("-inf")] * 3
    low, high = rows[0].get_xlim()
    scale = (high - low) / pictures.room(rows[0], seen.start, seen.end)
    for axes in rows:
        axes.vlines([tick / 10 for tick, _ in seen.disturbances], 0, 1, transform=axes.get_xaxis_transform(),
                    color=TROUBLE, linewidth=0.8, linestyle=(0, (1, 2)), zorder=0, gid="disturbances")  # fmt: skip
    for tick, word in seen.disturbances:
        width = scale * pictures.width_of(word, 7)
        x = min(tick / 10, high - width)
        level = next((it for it, end in enumerate(taken) if x > end), None)
        if level is not None:
            taken[level] = x + width + 4 * scale
            rows[0].annotate(word, (x, 1), xycoords=("data", "axes fraction"), xytext=(0, 3 + 9 * level),
                             textcoords="offset points", fontsize=7, color=TROUBLE, annotation_clip=False)  # fmt: skip


def draw(seen, path, names, began=None):
    """Draws the picture of the offset and writes it."""
    title = f"{names.cabinet(seen.cabinet.number)}: the offset, ticks {seen.start} to {seen.end}"
    drawn, rows = pictures.figure(5.6, title, 3, [2.6, 1.5, 0.32])
    drawn.subplots_adjust(hspace=0.14, top=0.87)
    pictures.time_axis(rows[2], seen.start, seen.end, began)
    draw_errors(rows[0], seen)
    draw_lengths(rows[1], seen)
    strips.draw(rows[2], seen.modes.spans, 0, 1)
    rows[2].set_yticks([0.5], ["mode"])
    rows[2].set_ylim(0, 1)
    for axes in rows[:2]:
        axes.tick_params(axis="x", length=0)
        axes.grid(axis="y", color="#e9ecef", linewidth=0.8, zorder=0)
    if seen.disturbances:
        draw_disturbances(rows[:2], seen)
    drawn.align_ylabels(rows)
    keys = [
        Line2D([], [], color=MET, marker="o", linewidth=0, label="local zero on the offset"),
        Line2D([], [], color=AWAY, marker="o", linewidth=0, label="local zero away from it"),
        Line2D([], [], color=FAINT, marker="D", linewidth=0, label="pickup"),
        Line2D([], [], color=FAINT, linewidth=1, linestyle=(0, (4, 3)), label="cycle of the pattern"),
    ]
    if seen.disturbances:
        keys.append(Line2D([], [], color=TROUBLE, linewidth=0.8, linestyle=(0, (1, 2)), label="disturbance"))
    pictures.legend(drawn, keys)
    pictures.save(drawn, path)
