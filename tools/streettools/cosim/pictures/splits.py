"""The split monitor: how long each phase had in each cycle, how its green ended, and what its split gives."""

from typing import Any, NamedTuple

from matplotlib.lines import Line2D

from ...look import pictures
from ...shared.cabinet import changes, mode_of, opened
from ...shared.fault import Fault
from ...shared.trace_reader import TraceReader
from ...shared.trace_records import Ended, Frame, Input
from .seen import View, label, room
from ..records import Study

COLOURS = {
    "gap": "#2f9e53",
    "force-off": "#c9302c",
    "maximum": "#7b1d1a",
    "yield": "#1c7ed6",
    "split filled": "#e8590c",
}
OTHER = "#868e96"
NAMES = {"gap": "gap-out", "maximum": "max-out", "force-off": "force-off", "yield": "yield of a coordinated phase"}


class Split(NamedTuple):
    """A phase was served: the second at which its green began, the seconds up to the end of its clearance, how its
    green ended, and the seconds that its split gives, None in free operation."""

    phase: int
    start: float
    length: float
    ending: str
    given: int | None


class Monitor:
    """Follows the phases of a cabinet."""

    def __init__(self, scenario: dict[str, Any], number: int) -> None:
        self.cabinet = opened(scenario, number)
        self.begun: dict[int, int] = {}
        self.ended: dict[int, tuple[str, int | None]] = {}
        self.splits: list[Split] = []

    def shown(self, frame: Frame) -> None:
        """Takes a frame."""
        before = self.cabinet.frame.vehicles if self.cabinet.frame else "R" * 16
        for phase, was, shows in changes(before, frame.vehicles):
            if shows == "G":
                self.begun[phase] = frame.tick
            elif was == "G":
                self.ended[phase] = (self.cabinet.ending(phase, frame), self.given(phase, frame))
            if shows == "R" and phase in self.ended:
                start = self.begun[phase]
                self.splits.append(Split(phase, start / 10, (frame.tick - start) / 10, *self.ended.pop(phase)))
        self.cabinet.shown(frame)

    def given(self, phase: int, frame: Frame) -> int | None:
        """Returns the seconds that the pattern under way gives a phase, with its clearance."""
        mode, tables = mode_of(frame.mode), self.cabinet.tables
        return tables.split(tables.pattern(mode.number, 4), phase, 3) if mode.letter == "C" else None


def collect(study: Study, number: int) -> list[Split]:
    """Returns all services of a cabinet's phases, by the trace."""
    with open(study.trace, "rb") as stream:
        reader = TraceReader(stream)
        monitor = Monitor(reader.scenario, number)
        for it in reader.happenings():
            if getattr(it, "cabinet", None) != number:
                continue
            match it:
                case Frame():
                    monitor.shown(it)
                case Ended():
                    monitor.cabinet.ended(it.load)
                case Input():
                    monitor.cabinet.sensed(it)
    return monitor.splits


def draw_phase(axes: Any, splits: list[Split], phase: int) -> None:
    """Draws the services of a phase: a dot each, and a line for what the split gives."""
    for ending in dict.fromkeys(it.ending for it in splits):
        shown = [it for it in splits if it.ending == ending]
        group = f"phase-{phase}-{ending.replace(' ', '-')}"
        look = {"color": COLOURS.get(ending, OTHER), "markersize": 4, "gid": group}
        axes.plot([it.start for it in shown], [it.length for it in shown], ".", **look)
    given = [it for it in splits if it.given is not None]
    look = {"color": pictures.INK, "linewidth": 0.8, "drawstyle": "steps-post", "gid": f"phase-{phase}-split"}
    axes.plot([it.start for it in given], [it.given for it in given], **look)
    axes.set_ylim(0, 1.15 * max((max(it.length, it.given or 0) for it in splits), default=1))
    label(axes, f"phase {phase}")


def draw(study: Study, number: int, view: View, path: str) -> None:
    """Draws the split monitor of a cabinet and writes it."""
    splits = [it for it in collect(study, number) if view.start <= it.start < view.end]
    phases = sorted({it.phase for it in splits})
    if not phases:
        raise Fault(f"no phase of cabinet {number} was served in this time")
    title = f"Split monitor, {view.cabinet(number)}: seconds of green, yellow and red clearance, by the begin of green"
    labels = room([f"phase {it}" for it in phases])
    drawn, all_axes = pictures.figure(1.1 + 0.95 * len(phases), title, len(phases), labels=labels)
    for axes, phase in zip(all_axes, phases):
        draw_phase(axes, [it for it in splits if it.phase == phase], phase)
    pictures.time_axis(all_axes[-1], 10 * view.start, 10 * view.end, view.began)
    pictures.legend(drawn, keys(splits))
    pictures.save(drawn, path)


def keys(splits: list[Split]) -> list[Line2D]:
    """Returns what explains the dots and the line."""
    seen = {it.ending if it.ending in COLOURS else "other" for it in splits}
    dots = [(NAMES.get(it, it), COLOURS.get(it, OTHER)) for it in (*COLOURS, "other") if it in seen]
    return [Line2D([], [], color=colour, marker=".", linestyle="", label=text) for text, colour in dots] + [
        Line2D([], [], color=pictures.INK, linewidth=0.8, label="split of the pattern")
    ]
