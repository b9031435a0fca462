"""The span of time of a log that is replayed or compared, in ticks since midnight of the log's first day."""

from typing import NamedTuple

from ..shared.clock import At
from ..shared.fault import Fault
from . import times
from .reading import Log


EARLY = 36_000
"""A span may begin up to an hour before the first row: the bench then starts up before that."""


class Span(NamedTuple):
    """From the first tick up to, not including, the last one."""

    begin: int
    end: int


def tick_of(at: At, begin: int) -> int:
    """Returns the first tick with a time of day that isn't before the log begins, or up to an hour before that."""
    if at.of_day is None:
        raise Fault(f"{at.text} is not a time of day, as 07:00 or 07:00:00.5")
    tick = begin // times.DAY * times.DAY + at.of_day
    return tick + times.DAY if tick < begin - EARLY else tick


def span_of(log: Log, first: At | None, last: At | None) -> Span:
    """Returns the span that is asked for, else that of all rows; it begins with a whole second."""
    begun, over = (log.first - log.midnight) // 10 * 10, log.last - log.midnight + 1
    begin = begun if first is None else tick_of(first, begun)
    end = over if last is None else tick_of(last, begin + EARLY)
    if not max(begin, begun) < min(end, over):
        known = f"{times.time_text(begun)} to {times.time_text(over)}"
        raise Fault(f"the log has no rows in that time: it is from {known}")
    return Span(begin, min(end, over))
