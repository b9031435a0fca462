"""The breaches that the lines of a log show, by looking back over all lines of a cabinet.

crates/judge_laws/specs: Breaches.antt, Joined.antt, Overrun.antt, TablesTold.antt. A log may be of any controller: no
rule of a tick is used. Lists have the newest line last.
"""

from collections.abc import Callable, Iterator
from dataclasses import dataclass, field
from enum import IntEnum

from model.preempts import PREEMPTS, Preempt, preempt
from model.promises.told import Seen
from model.sides import incompatible
from model.tables import Row, Tables, enabled, rows
from model.words import PHASES, STAGES, Kind, Mode, START


class Clause(IntEnum):
    """The six clauses of a safe street."""

    APART = 1
    ORDER = 2
    CLEARANCE = 3
    SHORT_GREEN = 4
    PEDESTRIAN = 5
    ON_GREEN = 6


@dataclass(frozen=True)
class Terms:
    """How a log is judged: the tolerance of lengths in ticks, and whether it begins in the middle."""

    tolerance: int = 0
    joined: bool = False


@dataclass(frozen=True)
class Breach:
    """A clause that a line breaks at a phase; `other` is the second phase of a pair, else 0."""

    tick: int
    clause: Clause
    phase: int
    other: int = 0


DARK = Seen(0, "R" * 16, "D" * 16, START, 0, 0, 0)
"""What a cabinet shows before its first line."""
NO_PREEMPT = Preempt(0, 0, 0, 0, 0, 1, 1, 0, frozenset(), frozenset(), frozenset())
"""The row of a preempt above 8."""
AFTER = {"G": "Y", "C": "R", "R": "G"}
SIGNAL_AFTER = {"D": "W", "F": "D"}


def row_of(tables: Tables, number: int) -> Preempt:
    """Returns the row of the preempt that a mode names; number 0 is taken as 1."""
    return preempt(tables, max(1, number)) if max(1, number) in PREEMPTS else NO_PREEMPT


def makes_way_for(tables: Tables, mode: Mode, p: int) -> Preempt | None:
    """Returns the preempt that is served while a phase isn't one of those that it serves."""
    if mode.kind not in STAGES:
        return None
    row = row_of(tables, mode.number)
    return None if p in (row.dwell if mode.kind is Kind.DWELL else row.entry) else row


def clearance_left(tables: Tables, mode: Mode, p: int, time: int) -> int:
    """Returns what is left of a pedestrian clearance of this time."""
    lesser = makes_way_for(tables, mode, p)
    return time if lesser is None else min(time, lesser.enter_clear)


@dataclass
class CabinetLog:
    """The lines of a cabinet so far, and the tables of each version, None once a load isn't known."""

    versions: list[Tables] | None
    lines: list[Seen] = field(default_factory=list)
    downloads: int = 0

    def tables(self, seen: Seen) -> Tables:
        """Returns the tables of the version that a line names."""
        return self.versions[seen.version]

    def newest(self) -> Seen:
        """Returns the newest line; a cabinet is dark before its first one."""
        return self.lines[-1] if self.lines else DARK

    def first_of(self, holds: Callable[[Seen], bool]) -> tuple[Seen, bool]:
        """Returns the first of the last lines in a row of which a fact holds, and whether a line before it is there."""
        at = len(self.lines)
        while at > 0 and holds(self.lines[at - 1]):
            at -= 1
        return self.lines[at], at > 0


@dataclass(frozen=True)
class Span:
    """How long an interval may last, in ticks; `most` is None if there isn't a maximum."""

    least: int
    most: int | None


Due = Callable[[Row, Preempt | None], Span]


def exactly(time: Callable[[Row], int]) -> Due:
    """Returns the rule of an interval that lasts exactly its time."""
    return lambda row, lesser: Span(time(row), time(row))


def green_due(row: Row, lesser: Preempt | None) -> Span:
    """Returns how long a green lasts: at least its minimum, or what a preempt leaves of it."""
    return Span(row.least_green if lesser is None else max(1, min(row.least_green, lesser.least_green)), None)


def walk_due(row: Row, lesser: Preempt | None) -> Span:
    """Returns how long a walk lasts."""
    return Span(row.walk if lesser is None else max(1, min(row.walk, lesser.least_walk)), row.walk)


def flash_due(row: Row, lesser: Preempt | None) -> Span:
    """Returns how long a pedestrian clearance lasts."""
    return Span(row.ped_clear if lesser is None else min(row.ped_clear, lesser.enter_clear), row.ped_clear)


LENGTHS: dict[str, tuple[Clause, Due]] = {
    "Y": (Clause.CLEARANCE, exactly(lambda row: row.yellow)),
    "C": (Clause.CLEARANCE, exactly(lambda row: row.red_clear)),
    "G": (Clause.SHORT_GREEN, green_due),
    "W": (Clause.PEDESTRIAN, walk_due),
    "F": (Clause.PEDESTRIAN, flash_due),
}
"""The clause of each colour and signal that has a time, and how long it lasts."""


def shows(letter: str, p: int) -> Callable[[Seen], bool]:
    """Returns the fact that a phase shows a colour, or gives a signal."""
    if letter in "WF":
        return lambda seen: seen.signals[p - 1] == letter
    return lambda seen: seen.colours[p - 1] == letter


def ends_wrong(log: CabinetLog, letter: str, p: int, line: Seen, terms: Terms) -> bool:
    """Tells whether a line ends an interval whose beginning the log shows, and which didn't last as it must."""
    holds = shows(letter, p)
    if not holds(log.newest()) or holds(line):
        return False
    first, is_begun = log.first_of(holds)
    if terms.joined and not is_begun:
        return False
    due = LENGTHS[letter][1](rows(log.tables(first))[p], makes_way_for(log.tables(line), line.mode, p))
    lasted = line.tick - first.tick
    return lasted + terms.tolerance < due.least or (due.most is not None and lasted > due.most + terms.tolerance)


def is_dark(seen: Seen, p: int) -> bool:
    """Tells whether a phase shows Red and Don't Walk."""
    return seen.colours[p - 1] == "R" and seen.signals[p - 1] == "D"


def are_together(line: Seen, p: int, q: int) -> bool:
    """Tells whether two phases are on together, or their pedestrian signals are."""
    on = line.colours[p - 1] != "R" and line.colours[q - 1] != "R"
    return on or (line.signals[p - 1] != "D" and line.signals[q - 1] != "D")


def is_out_of_order(tables: Tables, last: Seen, line: Seen, p: int) -> bool:
    """Tells whether the colour or the signal of a phase is neither the last one nor the one that follows it."""
    row = rows(tables)[p]
    was, signal = last.colours[p - 1], last.signals[p - 1]
    colour_next = AFTER.get(was) or ("C" if row.red_clear else "R")
    signal_next = SIGNAL_AFTER.get(signal) or ("F" if clearance_left(tables, line.mode, p, row.ped_clear) else "D")
    return line.colours[p - 1] not in (was, colour_next) or line.signals[p - 1] not in (signal, signal_next)


def phase_breaches(log: CabinetLog, line: Seen, p: int, terms: Terms) -> Iterator[Breach]:
    """Yields the breaches of a phase that a line shows after those before it."""
    tables = log.tables(line)
    for q in sorted(incompatible(tables)[p]):
        if p < q and are_together(line, p, q):
            yield Breach(line.tick, Clause.APART, p, q)
    if p not in enabled(tables) and not is_dark(line, p):
        yield Breach(line.tick, Clause.APART, p)
    knows_last = bool(log.lines) or not terms.joined
    if line.tick > 0 and knows_last and is_out_of_order(tables, log.newest(), line, p):
        yield Breach(line.tick, Clause.ORDER, p)
    for letters in ("YC", "G", "WF"):
        if any(ends_wrong(log, letter, p, line, terms) for letter in letters):
            yield Breach(line.tick, LENGTHS[letters[0]][0], p)
    if line.signals[p - 1] != "D" and line.colours[p - 1] != "G":
        yield Breach(line.tick, Clause.ON_GREEN, p)


def line_breaches(log: CabinetLog, line: Seen, terms: Terms) -> list[Breach]:
    """Returns the breaches that a line shows after those before it."""
    return [breach for p in PHASES for breach in phase_breaches(log, line, p, terms)]


@dataclass(frozen=True)
class Overrun:
    """An interval that has not ended, has lasted longer than its time, and began at this tick."""

    phase: int
    letter: str
    since: int


def overruns(log: CabinetLog, tick: int, tolerance: int) -> list[Overrun]:
    """Returns the intervals of a cabinet that have lasted longer than their time at a tick."""
    found = []
    for p in PHASES:
        for letter in "YCWF":
            holds = shows(letter, p)
            if holds(log.newest()):
                first, _ = log.first_of(holds)
                most = LENGTHS[letter][1](rows(log.tables(first))[p], None).most
                if first.tick + most + tolerance < tick:
                    found.append(Overrun(p, letter, first.tick))
    return found
