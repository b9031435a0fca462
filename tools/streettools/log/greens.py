"""The greens of a cabinet, of a log and of a trace of the bench, in ticks since midnight of the log's first day."""

from collections.abc import Iterable, Iterator
from dataclasses import dataclass, field
from typing import NamedTuple

from ..shared.trace_reader import TraceReader
from ..shared.trace_records import Frame
from . import judging
from .reading import Log


class Shows(NamedTuple):
    """What a cabinet shows from a tick on."""

    tick: int
    colours: str
    signals: str
    mode: str


class Green(NamedTuple):
    """A green, or a whole split, from its first tick up to its end."""

    start: int
    end: int

    @property
    def length(self) -> int:
        """Returns its length in ticks."""
        return self.end - self.start


@dataclass
class Lights:
    """What a cabinet shows, in the order of time, up to a tick."""

    shows: list[Shows] = field(default_factory=list)

    def greens(self, phase: int, begin: int, end: int) -> list[Green]:
        """Returns the greens of a phase that begin and end within a span."""
        return self.intervals(phase, "G", begin, end)

    def splits(self, phase: int, begin: int, end: int) -> list[Green]:
        """Returns the times that a phase is on: green, yellow change and red clearance together."""
        return self.intervals(phase, "GYC", begin, end)

    def intervals(self, phase: int, letters: str, begin: int, end: int) -> list[Green]:
        """Returns the times at which a phase shows one of some colours, if they begin and end within a span."""
        found, since = [], None
        for it in self.shows:
            holds = it.colours[phase - 1] in letters
            if holds and since is None:
                since = it.tick
            elif not holds and since is not None:
                if begin <= since and it.tick <= end:
                    found.append(Green(since, it.tick))
                since = None
        return found


def of_log(log: Log, parts: list[str]) -> dict[int, Lights]:
    """Returns what each cabinet of a log shows."""
    found: dict[int, Lights] = {cabinet: Lights() for cabinet in log.devices.values()}
    for part in parts:
        for cabinet, tick, colours, signals, mode in judging.frames(part):
            shows = found[cabinet].shows
            if not shows or tick > shows[-1].tick:
                shows.append(Shows(tick, colours, signals, mode))
    return found


def of_trace(reader: TraceReader, offset: int, frames: list[Frame]) -> dict[int, Lights]:
    """Returns what each cabinet of a trace shows; ticks have an offset. Its frames are also kept in a list."""
    found: dict[int, Lights] = {cabinet: Lights() for cabinet in range(1, reader.cabinets + 1)}
    for it in reader.happenings(ends=False):
        if isinstance(it, Frame):
            frames.append(it)
            found[it.cabinet].shows.append(Shows(it.tick + offset, it.vehicles, it.pedestrians, it.mode))
    return found


def together(one: Iterable[Shows], other: Iterable[Shows]) -> Iterator[tuple[int, Shows, Shows]]:
    """Yields each tick at which one of two cabinets changes, with what both show from then on; from the first tick at
    which both show something."""
    ones, others = list(one), list(other)
    ticks = sorted({it.tick for it in (*ones, *others)})
    at_one = at_other = -1
    for tick in ticks:
        while at_one + 1 < len(ones) and ones[at_one + 1].tick <= tick:
            at_one += 1
        while at_other + 1 < len(others) and others[at_other + 1].tick <= tick:
            at_other += 1
        if at_one >= 0 and at_other >= 0:
            yield tick, ones[at_one], others[at_other]
