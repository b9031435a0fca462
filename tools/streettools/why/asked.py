"""What is asked for, in the words of users: a cabinet by its name or number, a moment as a time of day or of the run;
what things are called."""

import argparse
from typing import NamedTuple

from model.scenario import Scenario

from ..look import called
from ..look.called import Called
from ..shared import clock
from ..shared.fault import Fault


class At(NamedTuple):
    """A moment: ticks since midnight, or ticks of the run."""

    text: str
    ticks: int
    is_of_day: bool


def moment(text: str) -> At:
    """Reads a moment for argparse: a time of day, as 07:13 or 07:13:05.5; seconds of the run, as 433; ticks, as
    4330t."""
    of_day = clock.of_day(text)
    try:
        return At(text, clock.run_ticks(text), False) if of_day is None else At(text, round(10 * of_day), True)
    except ValueError:
        raise argparse.ArgumentTypeError(
            f"{text!r} is not a time of day (07:13:05), seconds of the run (433) or ticks (4330t)"
        ) from None


def doubt(at: At) -> str | None:
    """Returns a line if a number of seconds looks like hours and minutes, as 713 for 07:13."""
    if not (at.text.isdecimal() and at.text.isascii() and clock.looks_like_a_clock(int(at.text))):
        return None
    hours, minutes = divmod(int(at.text), 100)
    return f"{at.text} is taken as seconds of the run; a time of day is written {hours:02}:{minutes:02}"


class Times(NamedTuple):
    """The times of a run: the time of day of tick 0, in ticks, and how many ticks the run has. `is_of_day` tells
    whether times are shown as times of day."""

    start: int
    ticks: int
    is_of_day: bool

    def text(self, tick: int) -> str:
        """Returns the time of a tick."""
        return clock.day_text((self.start + tick) / 10) if self.is_of_day else clock.clock_text(tick / 10)

    def tick(self, at: At) -> int:
        """Returns the tick of a moment, which the run must have."""
        tick = (at.ticks - self.start) % clock.DAY_TICKS if at.is_of_day else at.ticks
        if 1 <= tick <= self.ticks:
            return tick
        day = Times(self.start, self.ticks, True)
        raise Fault(
            f"{at.text} is not in the trace, which has ticks 1 to {self.ticks}: {day.text(1)} to {day.text(self.ticks)}"
        )


def times(scenario: Scenario, cabinet: int, start: float | None, at: At) -> Times:
    """Returns the times of a run, whose tick 0 is at a given time of day; if none is given, at that of the master's
    clock, or, if it begins at midnight, at that of the cabinet's."""
    ticks = scenario.rounds * scenario.ticks
    first = round(10 * start) if start is not None else scenario.master.clock or scenario.cabinets[cabinet - 1].clock
    return Times(first, ticks, start is not None or first > 0 or at.is_of_day)


def names(trace: str, named: str | None, scenario: str | None, cabinets: int) -> Called:
    """Returns what things are called: by a names file; by a sheet, or the names file of a scenario; else by the names
    file that has the name of the trace (street.names.json for street.trace), if there is one."""
    if named is not None:
        return called.fitting(called.read(named), named, cabinets)
    if scenario is not None:
        return called.fitting(of_scenario(scenario), scenario, cabinets)
    beside = called.beside(trace)
    return Called() if beside is None else called.fitting(called.read(beside), beside, cabinets)


def of_scenario(path: str) -> Called:
    """Returns the names that a sheet has, or that are next to a scenario."""
    from ..plan import sources  # takes a while

    source = sources.load(path)
    if source.street is None or source.errors:
        raise Fault(f"{path}: neither a sheet nor a scenario that is valid; `arterial plan check` has more")
    return Called(source.street.names)


def cabinet(text: str | None, found: Called, cabinets: int) -> int:
    """Returns the number of the cabinet that a text names by its number, or by the name of its intersection."""
    if text is None:
        if cabinets > 1:
            raise Fault(f"the trace has {cabinets} cabinets: add --cabinet N, 1 to {cabinets}, or a name")
        return 1
    return found.number(text, cabinets)
