"""A cabinet's past: each frame with what its tick saw, and what the cabinet has received since the last one.

docs/DEFINITIONS.md, "A history, and looking back over it". A tick looks back over the list of moments. So that a long
green doesn't cost its length again at every tick, a moment also keeps when the last run of a thing began, or how long
it is: it is one more than in the moment before if the thing still holds, and starts again if it doesn't. That is what a
walk back over the list counts; model/tests/test_past.py walks back and compares.
"""

from dataclasses import dataclass, field

from model.calls import Calls
from model.counter import Cycle
from model.priority import Places
from model.tables import Tables
from model.words import FIRST, PHASES, Colour, Frame, Kind, Mode, STAGES, Signal


@dataclass
class Moment:
    """A tick: the frame that it gave, and what it saw. The first moment is before all ticks."""

    number: int
    frame: Frame
    tables: Tables
    clock: int
    command: int
    commanded: int
    """The number of the last tick before the pattern in command was received."""
    calls: Calls = Calls()
    places: Places = field(default_factory=dict)
    """By number, the last priority request of each, and its state."""
    colour_began: dict[int, int] = field(default_factory=lambda: dict.fromkeys(PHASES, 0))
    """For each phase the number of the moment at which it began to show its colour."""
    signal_began: dict[int, int] = field(default_factory=lambda: dict.fromkeys(PHASES, 0))
    quiet: dict[int, int] = field(default_factory=dict)
    """For how many last ticks in a row a phase was Green before and not active."""
    opposed: dict[int, int] = field(default_factory=dict)
    """For how many last ticks in a row a phase was Green before and an incompatible one had demand."""
    preempts: dict[int, int] = field(default_factory=dict)
    """For how many last ticks in a row the input of a preempt was on."""
    last_on: dict[int, int] = field(default_factory=dict)
    """By ring, the phase that was on last since Start."""
    latest_on: int = 0
    """A phase that was on in the latest frame since Start with one on, or 0."""
    cycle: Cycle = Cycle()
    mode_run: int = 1
    """For how many last frames in a row the mode is this one."""
    stage_run: int = 0
    """For how many last frames in a row the preempt of this mode is served."""
    held_run: int = 1
    """For how many last frames in a row of this mode the same phases are on, all of them Green."""


@dataclass
class ToldSinceFrame:
    """What a cabinet has received since its last frame."""

    command: int | None = None
    clock: int | None = None
    calls: Calls = Calls()
    inputs: frozenset[int] = frozenset()
    """The preempts whose input is on."""
    places: Places = field(default_factory=dict)
    """By number, the last priority request of each."""


class Past:
    """All moments of a cabinet, the oldest first, what it has received since the last one, and the tables of its
    versions."""

    def __init__(self, tables: Tables, command: int, clock: int) -> None:
        self.versions = [tables]
        self.told = ToldSinceFrame()
        self.moments = [Moment(0, FIRST, tables, clock, command, 0)]

    @property
    def tables(self) -> Tables:
        """Returns the tables in force."""
        return self.versions[-1]

    @property
    def version(self) -> int:
        """Returns the number of downloads that were accepted."""
        return len(self.versions) - 1

    @property
    def last(self) -> Moment:
        """Returns the last moment."""
        return self.moments[-1]

    def thin(self) -> None:
        """Replaces the moment before the last one by the one before that, if both show the same: the tables of a colour
        or a signal are read from the moment with which it began. A past that is thinned takes no memory for what stays
        the same."""
        if len(self.moments) < 3:
            return
        one, two = (it.frame for it in self.moments[-3:-1])
        if one.lights is two.lights and one.signals is two.signals:
            self.moments[-2] = self.moments[-3]

    def run(self, p: int) -> int:
        """Returns for how many last frames in a row a phase shows its colour."""
        return self.last.number - self.last.colour_began[p] + 1

    def latched(self, p: int) -> Tables:
        """Returns the tables that were in force as a phase began to show its colour."""
        return self.moments[self.last.colour_began[p]].tables

    def signal_run(self, p: int) -> int:
        """Returns for how many last frames in a row a phase shows its signal."""
        return self.last.number - self.last.signal_began[p] + 1

    def signal_latched(self, p: int) -> Tables:
        """Returns the tables that were in force as a phase began to show its signal."""
        return self.moments[self.last.signal_began[p]].tables


def began(
    before: dict[int, int], was: dict[int, Colour | Signal], shows: dict[int, Colour | Signal], number: int
) -> dict[int, int]:
    """Returns when phases began to show what they show: at this number if they show something different now."""
    if was is shows:
        return before
    return {p: before[p] if was[p] is shows[p] else number for p in PHASES}


def lasting(before: dict[int, int], now: frozenset[int]) -> dict[int, int]:
    """Returns for how many ticks in a row each thing of a set has lasted, this tick included."""
    return {it: before.get(it, 0) + 1 for it in now}


def stage_of(mode: Mode) -> int:
    """Returns the number of the preempt that a mode serves, or 0."""
    return mode.number if mode.kind in STAGES else 0


def on_last(before: Moment, frame: Frame, ring_of: dict[int, int]) -> tuple[dict[int, int], int]:
    """Returns the phase last on in each ring, and a phase of the latest frame with one on, since Start."""
    if frame.mode.kind is Kind.START:
        return {}, 0
    if not frame.lights.on:
        return before.last_on, before.latest_on
    return {**before.last_on, **{ring_of[p]: p for p in frame.lights.on}}, min(frame.lights.on)


def held_for(before: Moment, frame: Frame) -> int:
    """Returns for how many last frames in a row of the mode the same phases are on, all of them Green."""
    if frame.lights.on != frame.lights.green:
        return 0
    goes_on = before.frame.mode == frame.mode and before.frame.lights.on == frame.lights.on
    return before.held_run + 1 if goes_on else 1
