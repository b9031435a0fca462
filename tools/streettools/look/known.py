"""What is said once, and taken from there unless the arguments say something else: names, the start, times of travel.

Names are those of `--names`, or of the names file that has the name of the trace. With names a run starts at the time
of day of its clock, and the names have the times of travel.
"""

import datetime
from typing import Any

from ..shared import clock
from . import called


def names_of(words, reader):
    """Returns the names of things."""
    path = words.names or called.beside(words.trace)
    return called.fitting(called.read(path), path, reader.cabinets) if path else called.Called()


def clock_of(scenario: dict[str, Any]) -> int:
    """Returns the clock with which a run starts, in ticks since midnight: the master's, else that of cabinet 1."""
    first = scenario.get("cabinets", [{}])[0]
    return int(scenario.get("master", {}).get("clock") or first.get("clock", 0))


def settle(words, names, reader):
    """Puts into the words what they leave out, and makes ticks of their moments, and numbers of names of cabinets."""
    at, count = clock_of(reader.scenario), reader.cabinets
    if hasattr(words, "cabinet"):
        words.cabinet = 1 if words.cabinet is None else names.number(words.cabinet, count)
    if hasattr(words, "cabinets"):
        words.cabinets = words.cabinets and [names.number(it, count) for it in words.cabinets]
        words.travel = words.travel or names.travel(words.cabinets or list(range(1, count + 1)))
    if hasattr(words, "start"):
        words.start = started(words.start, names, at)
    if hasattr(words, "first"):
        for name in ("first", "last"):
            moment = getattr(words, name)
            if isinstance(moment, clock.At):
                setattr(words, name, clock.placed(moment, words.start, at, reader.rounds * reader.ticks))


def started(start, names, at):
    """Returns when a run starts: as is said; on a day at the time of the clock; with names at that time of any day."""
    if start is None and names.is_given and at:
        return at / 10
    if isinstance(start, datetime.date) and not isinstance(start, datetime.datetime):
        return datetime.datetime.combine(start, clock.day_time(at))
    return start
