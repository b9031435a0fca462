"""Preemption: when a preempt is called, and through which stages it is served.

docs/DEFINITIONS.md, "A tick: preemption and priority"; docs/SCENARIO.md, the columns of `preempt`. The sets of
phases are always those in force now.
"""

from dataclasses import dataclass

from model.cells import Table
from model.past import Moment, Past, stage_of
from model.tables import Tables, of_tables
from model.words import Frame, Kind, Mode

PREEMPTS = range(1, 9)


@dataclass(frozen=True)
class Preempt:
    """The row of a preempt, its times in ticks."""

    delay: int
    least_duration: int
    least_green: int
    least_walk: int
    enter_clear: int
    track_green: int
    dwell_green: int
    most_presence: int
    track: frozenset[int]
    dwell: frozenset[int]
    exit: frozenset[int]

    @property
    def entry(self) -> frozenset[int]:
        """Returns the phases that are served first."""
        return self.track or self.dwell


@of_tables
def preempt(tables: Tables, number: int) -> Preempt:
    """Returns the row of a preempt."""

    def ticks(column: int) -> int:
        return 10 * tables.number(Table.PREEMPT, number, column)

    def phases(column: int) -> frozenset[int]:
        return frozenset(tables.octets(Table.PREEMPT, number, column))

    return Preempt(
        delay=ticks(4),
        least_duration=ticks(5),
        least_green=ticks(6),
        least_walk=ticks(7),
        enter_clear=ticks(8),
        track_green=max(1, ticks(9)),
        dwell_green=max(1, ticks(10)),
        most_presence=ticks(11),
        track=phases(12),
        dwell=phases(13),
        exit=phases(15),
    )


def is_called(tables: Tables, number: int, lasted: int) -> bool:
    """Tells whether a preempt is called whose input has been on for `lasted` ticks in a row: longer than its delay, and
    not longer than its maximum presence after that."""
    row = preempt(tables, number)
    if not row.dwell or lasted < row.delay + 1:
        return False
    return row.most_presence == 0 or lasted <= row.delay + row.most_presence


def called_now(tables: Tables, lasted: dict[int, int]) -> list[int]:
    """Returns the preempts that are called, by how long each input has been on."""
    return [i for i in sorted(lasted) if is_called(tables, i, lasted[i])]


def has_reached(frame: Frame, goal: frozenset[int]) -> bool:
    """Tells whether all phases of a goal are Green and nothing else is on."""
    return frame.lights.green == goal and frame.lights.on == goal


def dwell_ends(row: Preempt, last: Moment, is_still_called: bool) -> bool:
    """Tells whether a dwell is over: its goal was reached in each of the last `dwell_green` frames, the preempt isn't
    called, and it has been served for its minimum duration."""
    held = last.held_run if has_reached(last.frame, row.dwell) else 0
    return held >= row.dwell_green and not is_still_called and last.stage_run >= row.least_duration


def stage_after(tables: Tables, last: Moment, called: list[int]) -> Mode | None:
    """Returns the stage that follows that of the last frame; None if the preempt is over."""
    mode = last.frame.mode
    row, number = preempt(tables, mode.number), mode.number
    if mode.kind is Kind.ENTRY:
        if not has_reached(last.frame, row.entry):
            return mode
        return Mode(Kind.TRACK if row.track else Kind.DWELL, number)
    if mode.kind is Kind.TRACK:
        return mode if last.mode_run < row.track_green else Mode(Kind.DWELL, number)
    if mode.kind is Kind.DWELL:
        if not dwell_ends(row, last, number in called):
            return mode
        return Mode(Kind.EXIT, number) if row.exit else None
    return mode if row.exit and not has_reached(last.frame, row.exit) else None


def stage_now(past: Past, lasted: dict[int, int]) -> Mode | None:
    """Returns the stage of the coming tick, None if no preempt is served. A lower number interrupts the stage of
    another preempt; if no stage is active, any number starts one."""
    called = called_now(past.tables, lasted)
    mode = past.last.frame.mode
    served = stage_of(mode)
    if called and (not served or called[0] < served):
        return Mode(Kind.ENTRY, called[0])
    return stage_after(past.tables, past.last, called) if served or mode.kind is Kind.EXIT else None
