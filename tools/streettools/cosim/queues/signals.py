"""What a session's frame lines show: when each phase is green, when walk is shown, what has changed in a step."""

import functools
from bisect import bisect_right
from typing import NamedTuple

G, W = ord("G"), ord("W")


class Change(NamedTuple):
    """A phase of a cabinet turns green or ends its green, at a second."""

    cabinet: int
    phase: int
    at: float
    is_green: bool


@functools.lru_cache(maxsize=4096)
def turned(before: bytes, after: bytes, letter: int) -> tuple[tuple[int, bool], ...]:
    """Returns the phases that begin or end to show a letter between two frames."""
    return tuple(
        (phase, now == letter)
        for phase, (was, now) in enumerate(zip(before, after), 1)
        if was != now and letter in (was, now)
    )


class Spans:
    """When something is shown: `starts` and `ends`, rising; the last has no end yet where it is still shown."""

    __slots__ = ("starts", "ends")

    def __init__(self) -> None:
        self.starts: list[float] = []
        self.ends: list[float] = []

    def turn(self, at: float, is_on: bool) -> None:
        """Begins or ends to be shown."""
        (self.starts if is_on else self.ends).append(at)

    def close(self, seconds: float) -> None:
        """Ends with the run what is still shown."""
        if len(self.ends) < len(self.starts):
            self.ends.append(seconds)

    def holds(self, at: float) -> bool:
        """Tells whether it is shown at a second."""
        place = bisect_right(self.starts, at) - 1
        return place >= 0 and (place >= len(self.ends) or at < self.ends[place])

    def first(self, at: float) -> float | None:
        """Returns the first second from one on at which it is shown, None where that doesn't come."""
        if self.holds(at):
            return at
        place = bisect_right(self.starts, at)
        return self.starts[place] if place < len(self.starts) else None


class Signals:
    """The signals of all cabinets of a session."""

    def __init__(self, cabinets: int) -> None:
        self.vehicles = [b"R" * 16] * (cabinets + 1)
        self.pedestrians = [b"D" * 16] * (cabinets + 1)
        self.greens = {(cabinet, phase): Spans() for cabinet in range(1, cabinets + 1) for phase in range(1, 17)}
        self.walks = {(cabinet, phase): Spans() for cabinet in range(1, cabinets + 1) for phase in range(1, 17)}

    def shown(self, lines: list[bytes]) -> list[Change]:
        """Takes the lines of an answer, and returns the changes of green in their order for each cabinet."""
        found: list[Change] = []
        for line in lines:
            if line[0] != 70:
                continue
            _, number, tick, vehicles, pedestrians, _ = line.split(b" ", 5)
            cabinet, at = int(number), int(tick) / 10
            if vehicles != self.vehicles[cabinet]:
                for phase, is_green in turned(self.vehicles[cabinet], vehicles, G):
                    self.greens[cabinet, phase].turn(at, is_green)
                    found.append(Change(cabinet, phase, at, is_green))
                self.vehicles[cabinet] = vehicles
            if pedestrians != self.pedestrians[cabinet]:
                for phase, is_walk in turned(self.pedestrians[cabinet], pedestrians, W):
                    self.walks[cabinet, phase].turn(at, is_walk)
                self.pedestrians[cabinet] = pedestrians
        return found

    def close(self, seconds: float) -> None:
        """Ends with the run."""
        for spans in (*self.greens.values(), *self.walks.values()):
            spans.close(seconds)
