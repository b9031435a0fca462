"""Each clearance lasts exactly its time, by the tables that were in force as it began. A green lasts at least its
minimum, and a walk with its clearance exactly its time. If the phase makes way for a preempt, each lasts no less than
the preempt's stage leaves of it."""

from collections.abc import Iterator
from dataclasses import dataclass

from model.preempts import Preempt, preempt
from model.promises.told import Interval, Street, intervals, served_preempt
from model.tables import Row, rows


@dataclass(frozen=True)
class Span:
    """How long an interval may last: from least to most ticks; `most` is None if there isn't a maximum."""

    least: int
    most: int | None


def span(shows: str, row: Row, lesser: Preempt | None) -> Span | None:
    """Returns how long a colour or a signal may last, by the row of the phase at its first tick; None of red and of
    no signal."""
    if shows in "YC":
        time = row.yellow if shows == "Y" else row.red_clear
        return Span(time, time)
    if shows == "G":
        return Span(row.least_green if lesser is None else max(1, min(row.least_green, lesser.least_green)), None)
    if shows == "W":
        return Span(row.walk if lesser is None else max(1, min(row.walk, lesser.least_walk)), row.walk)
    if shows == "F":
        return Span(row.ped_clear if lesser is None else min(row.ped_clear, lesser.enter_clear), row.ped_clear)
    return None


def due(street: Street, it: Interval) -> Span | None:
    """Returns how long an interval may last."""
    number = served_preempt(street, it)
    lesser = preempt(street.tables(it.end), number) if number and it.end else None
    return span(it.shows, rows(street.tables(it.first))[it.phase], lesser)


def times(street: Street) -> Iterator[str]:
    """Yields the violations of this promise in a street. What still runs as the trace ends must not have outlasted its
    time."""
    for of_signals in (False, True):
        for it in intervals(street, of_signals):
            may = due(street, it)
            if may is None:
                continue
            is_short = it.end is not None and it.lasted < may.least
            if is_short or (may.most is not None and it.lasted > may.most):
                most = "" if may.most is None else f" to {may.most}"
                told = f"phase {it.phase} shows {it.shows} for {it.lasted} ticks"
                yield f"tick {it.first.tick}: {told}, {may.least}{most} are due"
