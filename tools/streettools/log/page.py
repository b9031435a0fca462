"""A log as a page for a browser (docs/PAGE.md): what the cabinets show, their calls, and a mark for each breach."""

import dataclasses
import heapq
import itertools
from collections.abc import Callable, Iterable, Iterator
from dataclasses import dataclass
from typing import Any

from ..look.called import Called
from ..look.page import writing
from ..shared.trace_records import Frame, Happening, Input, Marked
from . import inputs
from .judging import frames
from .reading import Log
from .sentences import Told

ROUND = 10


@dataclass
class Pages:
    """What a page is made of, in place of a trace: cabinets, how many ticks there are, and what happened."""

    scenario: dict[str, Any]
    length: int
    happened: Callable[[], Iterator[Happening]]

    @property
    def cabinets(self) -> int:
        """Returns the number of cabinets."""
        return len(self.scenario["cabinets"])

    @property
    def rounds(self) -> int:
        """Returns the number of rounds."""
        return -(-self.length // ROUND)

    @property
    def ticks(self) -> int:
        """Returns the ticks of a round."""
        return ROUND

    def happenings(self) -> Iterator[Happening]:
        """Yields what happened."""
        return self.happened()

    def finish(self) -> None:
        """There is nothing that could be left."""


Found = tuple[int, int, str, str, str]


def by_cabinet(parts: list[str]) -> Iterator[tuple[int, list[Found]]]:
    """Yields the frames of each cabinet in turn, over all parts of a log, each of which has its cabinets in order."""
    groups = [itertools.groupby(frames(part), key=lambda it: it[0]) for part in parts]
    heads = [next(group, None) for group in groups]
    while cabinets := [head[0] for head in heads if head is not None]:
        cabinet, found = min(cabinets), []
        for place, head in enumerate(heads):
            if head is not None and head[0] == cabinet:
                found += list(head[1])
                heads[place] = next(groups[place], None)
        yield cabinet, found


def rising(found: list[Found], base: int) -> Iterator[Frame]:
    """Yields the frames of a cabinet, with ticks from a base on; a frame that isn't later than those before it (the
    clock was set back) is left out."""
    last = base - 1
    for cabinet, tick, colours, signals, mode in found:
        if tick > last:
            last = tick
            yield Frame(cabinet, tick - base, colours, signals, mode, tick - base or 1, 0, 0)


def frames_of(parts: list[str], base: int) -> Iterator[Frame]:
    """Yields the frames of a log, cabinet by cabinet."""
    for _, found in by_cabinet(parts):
        yield from rising(found, base)


def calls_of(log: Log, device: str, base: int) -> Iterator[Input]:
    """Yields the inputs of a device."""
    cabinet = log.devices[device]
    last, bank = base, inputs.Bank(log.plan.channels.get(cabinet, {}))
    for its in log.stretches_of(device):
        for it in inputs.inputs(its, bank, cabinet, log.findings):
            if it.tick >= last:
                last = it.tick
                yield Input(cabinet, it.tick - base, it.kind, it.number, it.on)


def tick_of(it: Happening) -> int:
    """Returns the tick of something that happened."""
    return it.tick


def base_of(log: Log) -> int:
    """Returns the tick with which a page begins: a whole second."""
    return max(0, (log.first - log.midnight - 1) // 10 * 10)


def write(log: Log, parts: list[str], told: list[Told], path: str) -> None:
    """Writes the page of a log."""
    base = base_of(log)

    def happened() -> Iterator[Happening]:
        devices = {cabinet: device for device, cabinet in log.devices.items()}
        for cabinet, found in by_cabinet(parts):
            breaches = [it for it in told if it.cabinet == cabinet]
            marks = [Marked(cabinet, max(0, it.tick - base), "breach", it.words) for it in breaches]
            its: list[Iterable[Happening]] = [rising(found, base), calls_of(log, devices[cabinet], base), marks]
            yield from heapq.merge(*its, key=tick_of)

    pages = Pages(log.plan.head(), log.last - log.midnight - base + 1, happened)
    street = list(range(1, log.plan.cabinets + 1))
    asked = writing.Asked(street, log.plan.names.travel(street), base / 10, bool(told))
    writing.write(pages, named(log), asked, path)


def named(log: Log) -> Called:
    """Returns the names of a page, with the date in its title."""
    from ..plan.names import Names

    names = log.plan.names.names or Names()
    return Called(dataclasses.replace(names, title=f"{names.title or 'A street'}, log of {log.date()}"))
