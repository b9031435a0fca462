"""The device and the proved cabinet next to each other: whether they agree, and the first moment at which they don't.

A sample agrees if the proved cabinet shows the same at a tick at which the device may have answered. If it isn't known
at which tick a call arrived, the test passes if the device agrees for one of the possible ticks.
"""

from collections.abc import Callable, Iterator
from dataclasses import dataclass

from .driving import Driven
from .expected import START, Expected
from .objects import Display
from .watching import Sample

MOST_RUNS = 150
"""How many runs of the proved cabinet one comparison may take."""

Run = Callable[[tuple[int, ...]], Expected]


@dataclass(frozen=True)
class Parting:
    """The first sample in which the two differ: its place, the ticks at which it may have been taken, counted from the
    first poll; whether only the place in the cycle differs."""

    place: int
    first: int
    last: int
    is_sync: bool = False


@dataclass(frozen=True)
class Compared:
    """The result: what the proved cabinet does, the ticks of the acts with which it agrees for the longest time, and
    the first difference, None if there is none."""

    expected: Expected
    ticks: tuple[int, ...]
    parting: Parting | None


def agree(shown: Display, due: Display, has_clearance: bool) -> bool:
    """Tells whether two displays are the same, as far as the device reports its own. Without phaseStatusGroupPhaseOns,
    red clearance can't be distinguished from red."""
    count = len(shown.vehicles)
    vehicles = due.vehicles[:count] if has_clearance else due.vehicles[:count].replace("C", "R")
    if shown.vehicles != vehicles or shown.pedestrians != due.pedestrians[:count]:
        return False
    if shown.stage and due.stage and shown.stage != due.stage:
        return False
    return shown.pattern is None or shown.pattern == due.pattern


def has_due(sample: Sample, expected: Expected, has_clearance: bool) -> bool:
    """Tells whether a sample agrees with the proved cabinet."""
    ticks = range(START + sample.span.first, START + sample.span.last + 1)
    return any(agree(sample.display, expected.at(it).display(), has_clearance) for it in ticks)


def has_sync(sample: Sample, expected: Expected) -> bool:
    """Tells whether the place in the cycle agrees, as far as it is known: to a second if the tick isn't known."""
    counter = expected.counters.get(START + sample.span.first)
    if sample.display.sync is None or counter is None:
        return True
    frame = expected.at(START + sample.span.first)
    if frame.mode[0] != "C":
        return True
    off = abs(sample.display.sync - counter // 10)
    return off == 0 or sample.span.first != sample.span.last and off <= 1


def parting(driven: Driven, expected: Expected, has_clearance: bool) -> Parting | None:
    """Returns the first difference."""
    for place, sample in enumerate(driven.samples):
        if not has_due(sample, expected, has_clearance):
            return Parting(place, *sample.span)
        if not has_sync(sample, expected):
            return Parting(place, *sample.span, is_sync=True)
    return None


def nearby(driven: Driven, best: Compared) -> Iterator[tuple[int, ...]]:
    """Yields other ticks at which the acts before the first difference may have arrived: one act is moved, first by
    one tick, then by more; the latest act first."""
    assert best.parting is not None
    spans = [it.span for it in driven.acts]
    end = best.parting.last
    movable = [at for at in reversed(range(len(spans))) if spans[at].first <= end and spans[at].first < spans[at].last]
    widest = max((spans[at].last - spans[at].first for at in movable), default=0)
    for distance in range(1, widest + 1):
        for at in movable:
            for tick in (best.ticks[at] - distance, best.ticks[at] + distance):
                if spans[at].first <= tick <= spans[at].last:
                    yield best.ticks[:at] + (tick,) + best.ticks[at + 1 :]


def compared(driven: Driven, run: Run, has_clearance: bool) -> Compared:
    """Compares a test with runs of the proved cabinet. `run` returns what it does if the acts arrive at some ticks."""
    left = MOST_RUNS

    def tried(ticks: tuple[int, ...]) -> Compared:
        nonlocal left
        left -= 1
        due = run(ticks)
        return Compared(due, ticks, parting(driven, due, has_clearance))

    def later(best: Compared) -> Compared | None:
        assert best.parting is not None
        for ticks in nearby(driven, best):
            if left <= 0:
                return None
            found = tried(ticks)
            if found.parting is None or found.parting.place > best.parting.place:
                return found
        return None

    best = tried(tuple((it.span.first + it.span.last) // 2 for it in driven.acts))
    while best.parting is not None and (better := later(best)) is not None:
        best = better
    return best


def asked_ticks(driven: Driven) -> list[int]:
    """Returns the ticks at which the place in the cycle was read."""
    return sorted({it.span.first for it in driven.samples if it.display.sync is not None})
