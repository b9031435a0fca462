"""What the program takes and hardly anybody means: times that are short for the street, units that were mixed up, plans
that are not there. The checks are in modules of their own; this one calls them."""

from collections.abc import Iterator

from ..shared.cells import PREEMPTS, value
from ..shared.tables import Tables
from . import conflicts, event_checks, lagging, schedule_checks, sheet_checks, tight, time_checks, transition
from .findings import Finding, warn
from .names import Names
from .reading import Street

SETTINGS = range(4, 16)


def of_preempts(tables: Tables, number: int, names: Names) -> Iterator[Finding]:
    """Yields the preempts that have times or phases but nothing to dwell in, so that they are never served."""
    for preempt in PREEMPTS:
        row = {column: value(tables, ("preempt", preempt, column)) for column in SETTINGS}
        if any(row.values()) and not row[13]:
            yield warn(names.called(number), f"preempt {preempt} has no dwell phases, so its input does nothing")


def all_of(street: Street, tables: list[Tables], sound: list[bool]) -> Iterator[Finding]:
    """Yields all warnings of a street, and what was computed of it. `sound` says of each cabinet whether its tables
    keep the rules."""
    names = street.names
    for number, it in enumerate(tables, 1):
        yield from conflicts.unusual(it, names.intersection(number), names.called(number))
        yield from time_checks.of_cabinet(it, number, names)
        yield from of_preempts(it, number, names)
    yield from lagging.all_of(tables, sound, names)
    yield from tight.all_of(tables, sound, names)
    yield from schedule_checks.all_of(street, tables)
    yield from event_checks.all_of(street, tables)
    yield from sheet_checks.all_of(street, tables)
    yield from transition.all_of(street, tables) if all(sound) else ()
    yield from time_checks.unchecked(street, tables)
