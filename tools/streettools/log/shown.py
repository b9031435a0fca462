"""What a cabinet shows in a stretch of its rows, as F lines (docs/TRACE.md): changes of all phases, put together by
their ticks, and the mode as far as rows show it."""

from collections.abc import Iterator
from dataclasses import dataclass
from typing import Any, NamedTuple

import numpy as np

from ..shared import event_codes as codes
from ..shared.tables import Tables
from . import phases
from .findings import Findings
from .phases import Shown
from .stretches import where

STAGES = {
    codes.PREEMPT_ENTRY: "e", codes.PREEMPT_TRACK: "t", codes.PREEMPT_DWELL: "d", codes.PREEMPT_EXIT: "x",
}  # fmt: skip
MODE_CODES = (*STAGES, codes.PATTERN_CHANGE, codes.CYCLE_STATE_CHANGE)
SIGNAL_CODES = tuple(phases.SIGNAL_OF)


class Line(NamedTuple):
    """What a cabinet shows from a tick on."""

    tick: int
    colours: str
    signals: str
    mode: str


@dataclass
class Stretch:
    """The lines of a stretch without a loss, in the order of time."""

    lines: list[Line]


class Changes:
    """All changes of a cabinet in a stretch, by tick: the colours and signals of phases, and modes."""

    def __init__(self) -> None:
        self.colours: dict[int, list[tuple[int, str]]] = {}
        self.signals: dict[int, list[tuple[int, str]]] = {}
        self.modes: dict[int, str] = {}
        self.first_colours, self.first_signals = ["R"] * 16, ["D"] * 16
        self.losses: set[int] = set()

    def add(self, phase: int, colours: Shown, signals: Shown) -> None:
        """Adds the changes of a phase."""
        self.first_colours[phase - 1], self.first_signals[phase - 1] = colours.first, signals.first
        for tick, letter in colours.changes:
            self.colours.setdefault(tick, []).append((phase, letter))
        for tick, letter in signals.changes:
            self.signals.setdefault(tick, []).append((phase, letter))
        self.losses.update(colours.lost, signals.lost)

    def ticks(self) -> list[int]:
        """Returns the ticks at which something changes."""
        return sorted({*self.colours, *self.signals, *self.modes})


def pairs_of(rows: Any, wanted: Any) -> list[tuple[int, int]]:
    """Returns the tick and the code of some rows."""
    part = rows[wanted]
    return list(zip(part["tick"].tolist(), part["code"].tolist()))


def modes_of(rows: Any) -> dict[int, str]:
    """Returns the mode from each tick on at which rows show a change of it. Patterns are coordinated modes; a preempt
    lasts until the rows of a pattern or of its state."""
    part = rows[np.isin(rows["code"], MODE_CODES)]
    found: dict[int, str] = {}
    pattern, mode = 0, "F"
    order = np.lexsort((part["code"] != codes.PREEMPT_EXIT, part["tick"]))
    for tick, code, number in part[order].tolist():
        before = mode
        if code in STAGES:
            mode = f"P{number}{STAGES[code]}"
        elif code == codes.PATTERN_CHANGE:
            pattern = number
            mode = f"C{number}" if 0 < number < codes.FREE_PATTERN else "F"
        elif number == codes.FREE:
            mode = "F"
        elif 0 < pattern < codes.FREE_PATTERN and number != codes.LOCAL_ZERO:
            mode = f"C{pattern}"
        if mode != before:
            found[tick] = mode
    return found


def changes_of(rows: Any, tables: Tables, cabinet: int, findings: Findings) -> Changes:
    """Returns the changes of a cabinet in a stretch, and counts what is missing."""
    found = Changes()
    found.modes = modes_of(rows)
    is_colour = np.isin(rows["code"], tuple(phases.COLOUR_CODES))
    is_signal = np.isin(rows["code"], SIGNAL_CODES)
    enabled = set(tables.enabled())
    for phase in range(1, 17):
        of_phase = rows["parameter"] == phase
        colours = phases.colours(pairs_of(rows, of_phase & is_colour))
        ends = [tick for tick, letter in colours.changes if letter == "Y"]
        signals = phases.signals(pairs_of(rows, of_phase & is_signal), ends, tables.phase(phase, 3) > 0)
        found.add(phase, colours, signals)
        for kind in ("missing", "apart", "lost"):
            for tick in sorted(getattr(colours, kind) + getattr(signals, kind)):
                findings.add(kind, f"phase {phase} at {where(tick)}", cabinet)
        count = int(np.count_nonzero(of_phase & (is_colour | is_signal)))
        if phase in enabled and not np.any(of_phase & is_colour):
            findings.add("unseen", f"phase {phase}", cabinet)
        elif phase not in enabled:
            findings.add("disabled", f"phase {phase}", cabinet, count)
    return found


def stretches_of(changes: Changes, first: int) -> Iterator[Stretch]:
    """Yields the lines between losses. `first` is the first tick of the rows; the line before the first change has what
    was shown before it."""
    colours, signals, mode = list(changes.first_colours), list(changes.first_signals), "F"
    ticks = changes.ticks()
    if not ticks:
        return
    begin = min(first, ticks[0] - 1)
    lines = [Line(begin, "".join(colours), "".join(signals), mode)] if begin >= 0 else []
    for tick in ticks:
        if tick in changes.losses and lines:
            yield Stretch(lines)
            lines = []
        for phase, letter in changes.colours.get(tick, ()):
            colours[phase - 1] = letter
        for phase, letter in changes.signals.get(tick, ()):
            signals[phase - 1] = letter
        mode = changes.modes.get(tick, mode)
        lines.append(Line(tick, "".join(colours), "".join(signals), mode))
    yield Stretch(lines)
