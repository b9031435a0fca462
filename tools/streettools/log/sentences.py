"""Breaches in words: what a phase showed, for how long, and what the plan has."""

from dataclasses import dataclass, field
from typing import NamedTuple

from ..shared.tables import Tables
from . import times
from .judging import CLAUSES, Breach, Overrun, Report, frames
from .street import Plan

COLOURS = {"G": "green", "Y": "yellow", "C": "red clearance", "R": "red"}
SIGNALS = {"W": "walk", "F": "pedestrian clearance", "D": "solid don't walk"}
COLUMNS = {"Y": (8, 1), "C": (9, 1), "W": (2, 10), "F": (3, 10), "G": (4, 10)}
"""The column of the phase table with the time of a letter, and how many ticks its unit is."""


class Told(NamedTuple):
    """A breach in words: its place, its date, its time of day, the clause, and the sentence."""

    cabinet: int
    place: str
    date: str
    time: str
    clause: str
    words: str
    phase: int
    other: int
    tick: int
    part: int

    def line(self) -> str:
        """Returns the line of a report."""
        return f"{self.place}, {self.date} {self.time}: {self.words}"


def seconds(ticks: int) -> str:
    """Returns a time in seconds."""
    return f"{ticks / 10:.1f} s"


def due_of(tables: Tables, phase: int, letter: str) -> int:
    """Returns the time of a colour or a signal by the plan, in ticks."""
    column, unit = COLUMNS[letter]
    return int(tables.phase(phase, column)) * unit


@dataclass
class Watch:
    """What a cabinet shows as its lines are read: its letters, and since when each phase shows its own."""

    tables: Tables
    colours: str = ""
    signals: str = ""
    since: list[int] = field(default_factory=lambda: [0] * 17)
    signal_since: list[int] = field(default_factory=lambda: [0] * 17)

    def take(self, tick: int, colours: str, signals: str) -> None:
        """Takes a line."""
        if colours != self.colours:
            for phase, (was, now) in enumerate(zip(self.colours or " " * 16, colours), 1):
                if was != now:
                    self.since[phase] = tick
        if signals != self.signals:
            for phase, (was, now) in enumerate(zip(self.signals or " " * 16, signals), 1):
                if was != now:
                    self.signal_since[phase] = tick
        self.colours, self.signals = colours, signals


class Line(NamedTuple):
    """A line of a log at which a breach shows."""

    tick: int
    colours: str
    signals: str
    mode: str


def lasted_words(watch: Watch, phase: int, letter: str, since: int, line: Line) -> str:
    """Returns how long an interval lasted, and the plan's time."""
    due = due_of(watch.tables, phase, letter)
    name = COLOURS.get(letter) or SIGNALS[letter]
    has = f"the plan has {seconds(due)}" if letter != "G" else f"the plan has at least {seconds(due)}"
    served = " (a preempt may shorten it)" if line.mode.startswith("P") else ""
    return f"phase {phase} {name} lasted {seconds(line.tick - since)}; {has}{served}"


def apart_words(watch: Watch, breach: Breach, line: Line) -> str:
    """Returns the words for conflicting phases, or for a phase that the plan doesn't enable."""
    one, two = line.colours[breach.phase - 1], line.colours[breach.other - 1]
    if not breach.other:
        return f"phase {breach.phase} shows {COLOURS[one]}; the plan doesn't enable it"
    if "R" in (one, two):
        walks = (line.signals[breach.phase - 1], line.signals[breach.other - 1])
        return (
            f"phase {breach.phase} shows {SIGNALS[walks[0]]} and phase {breach.other} {SIGNALS[walks[1]]} together; "
            "the plan has them in conflict"
        )
    return (
        f"phase {breach.phase} {COLOURS[one]} and phase {breach.other} {COLOURS[two]} together; the plan has them in "
        "conflict"
    )


def order_words(watch: Watch, breach: Breach, line: Line) -> str:
    """Returns the words for a colour or a signal out of order."""
    at = breach.phase - 1
    if not watch.colours:
        return f"phase {breach.phase} begins with {COLOURS[line.colours[at]]}"
    if watch.colours[at] != line.colours[at]:
        was, now = COLOURS[watch.colours[at]], COLOURS[line.colours[at]]
        return f"phase {breach.phase} went from {was} to {now}"
    return f"phase {breach.phase} went from {SIGNALS[watch.signals[at]]} to {SIGNALS[line.signals[at]]}"


def words_of(watch: Watch, breach: Breach, line: Line) -> str:
    """Returns the sentence of a breach, before its line is taken."""
    at = breach.phase - 1
    clause = CLAUSES[breach.clause - 1]
    if clause == "apart":
        return apart_words(watch, breach, line)
    if clause == "order":
        return order_words(watch, breach, line)
    if clause == "on green":
        return f"phase {breach.phase} shows {SIGNALS[line.signals[at]]} with {COLOURS[line.colours[at]]}"
    if clause == "pedestrian":
        return lasted_words(watch, breach.phase, watch.signals[at], watch.signal_since[breach.phase], line)
    return lasted_words(watch, breach.phase, watch.colours[at], watch.since[breach.phase], line)


def overrun_words(it: Overrun, tables: Tables) -> str:
    """Returns the sentence of an interval that has not ended."""
    name = COLOURS.get(it.letter) or SIGNALS[it.letter]
    due = due_of(tables, it.phase, it.letter)
    return f"phase {it.phase} {name} has not ended where the rows end; the plan has {seconds(due)}"


def told(plan: Plan, midnight: int, parts: list[str], report: Report) -> list[Told]:
    """Returns the breaches of a log in words, and the intervals that have not ended; in the order of time."""
    found = [told_overrun(plan, midnight, it) for it in report.overruns]
    wanted: dict[int, dict[tuple[int, int], list[Breach]]] = {}
    for breach in report.breaches:
        wanted.setdefault(breach.part, {}).setdefault((breach.cabinet, breach.tick), []).append(breach)
    for number, its in wanted.items():
        found += of_part(plan, midnight, parts[number], its)
    return sorted(found, key=lambda it: (it.tick, it.cabinet, it.phase))


def of_part(plan: Plan, midnight: int, part: str, wanted: dict[tuple[int, int], list[Breach]]) -> list[Told]:
    """Returns the breaches of a part in words."""
    cabinets = {cabinet for cabinet, _ in wanted}
    watches = {cabinet: Watch(plan.tables(cabinet)) for cabinet in cabinets}
    found = []
    for cabinet, tick, colours, signals, mode in frames(part):
        if cabinet not in cabinets:
            continue
        for breach in wanted.get((cabinet, tick), ()):
            words = words_of(watches[cabinet], breach, Line(tick, colours, signals, mode))
            found.append(told_at(plan, midnight, breach, words))
        watches[cabinet].take(tick, colours, signals)
    return found


def told_at(plan: Plan, midnight: int, it: Breach, words: str) -> Told:
    """Returns a breach with its words."""
    at = midnight + it.tick
    return Told(
        it.cabinet, plan.place(it.cabinet), times.day_text(at), times.time_text(at), CLAUSES[it.clause - 1], words,
        it.phase, it.other, it.tick, it.part,
    )  # fmt: skip


def told_overrun(plan: Plan, midnight: int, it: Overrun) -> Told:
    """Returns an interval that has not ended, with its words."""
    at = midnight + it.since
    return Told(
        it.cabinet, plan.place(it.cabinet), times.day_text(at), times.time_text(at), "not ended",
        overrun_words(it, plan.tables(it.cabinet)), it.phase, 0, it.since, it.part,
    )  # fmt: skip
