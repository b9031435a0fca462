"""A log next to a trace of the bench: the same time of day, the same cabinets; and both on one page."""

import copy
from collections.abc import Iterator
from dataclasses import dataclass
from typing import Any

from ..look import reading as trace_reading
from ..look.called import Called
from ..look.known import clock_of
from ..look.page import writing
from ..shared.clock import At
from ..shared.fault import Fault
from ..shared.trace_reader import TraceReader
from ..shared.trace_records import Frame, Happening
from . import comparing, greens, times
from .comparing import Compared
from .greens import Lights
from .page import Pages, frames_of
from .reading import Log
from .spans import Span, span_of


@dataclass
class Pair:
    """A log and a trace, the tick of the log at the trace's tick 0, and the span that both have."""

    log: Log
    parts: list[str]
    scenario: dict[str, Any]
    frames: list[Frame]
    offset: int
    span: Span
    of_log: dict[int, Lights]
    of_bench: dict[int, Lights]

    def compared(self) -> list[Compared]:
        """Returns what is compared of each cabinet of the log."""
        return [
            comparing.compare(it, self.log.plan.tables(it), self.of_log[it], self.of_bench[it], self.span)
            for it in sorted(self.of_log)
        ]


def offset_of(clock: int, begin: int) -> int:
    """Returns the tick of a log at the tick 0 of a run that starts at this time of day, on the day nearest to the
    beginning of the span."""
    return clock + round((begin - clock) / times.DAY) * times.DAY


def read(log: Log, parts: list[str], path: str, first: At | None, last: At | None) -> Pair:
    """Reads the trace, and returns it next to the log."""
    asked = span_of(log, first, last)
    found: list[Pair] = []

    def take(reader: TraceReader) -> None:
        if reader.cabinets != log.plan.cabinets:
            raise Fault(f"{path}: the trace has {reader.cabinets} cabinets, and the plan {log.plan.cabinets}")
        offset = offset_of(clock_of(reader.scenario), asked.begin)
        end = offset + reader.rounds * reader.ticks
        span = Span(max(asked.begin, offset), min(asked.end, end))
        if span.end <= span.begin:
            known = f"{times.time_text(offset)} to {times.time_text(end)}"
            raise Fault(f"{path}: its run is from {known}, and the log has no rows in that time")
        frames: list[Frame] = []
        bench = greens.of_trace(reader, offset, frames)
        found.append(Pair(log, parts, reader.scenario, frames, offset, span, greens.of_log(log, parts), bench))

    trace_reading.read(path, False, take)
    return found[0]


def doubled(pair: Pair) -> Called:
    """Returns the names of a page that has each cabinet twice."""
    from ..plan.names import Names

    names = copy.deepcopy(pair.log.plan.names.names or Names())
    its = []
    for number in range(1, pair.log.plan.cabinets + 1):
        for where in ("log", "bench"):
            it = copy.deepcopy(names.intersection(number))
            it.name = f"{pair.log.plan.place(number)}, {where}"
            its.append(it)
    names.intersections = its
    names.title = f"{names.title or 'A street'}: log of {pair.log.date()} and bench"
    return Called(names)


def write_page(pair: Pair, path: str) -> None:
    """Writes a page on which each cabinet of the log is next to the same cabinet of the bench."""
    base = pair.span.begin
    cabinets = [it for setup in pair.log.plan.scenario["cabinets"] for it in (setup, setup)]
    scenario = pair.log.plan.head() | {"cabinets": cabinets}

    def happened() -> Iterator[Happening]:
        log = (it._replace(cabinet=2 * it.cabinet - 1) for it in frames_of(pair.parts, base))
        bench = (
            it._replace(cabinet=2 * it.cabinet, tick=it.tick + pair.offset - base)
            for it in pair.frames
            if it.tick + pair.offset >= base
        )
        yield from (it for part in (log, bench) for it in part if it.tick <= pair.span.end - base)

    pages = Pages(scenario, pair.span.end - base, happened)
    names = doubled(pair)
    asked = writing.Asked(list(range(1, len(cabinets) + 1)), None, base % times.DAY / 10)
    writing.write(pages, names, asked, path)
