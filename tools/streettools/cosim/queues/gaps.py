"""Turns that give way: a left turn under a green of its approach, a right turn on red. They take gaps between those to
whom they yield, with a critical gap and a follow-up time (Highway Capacity Manual).

docs/QUEUES.md, "Turns that give way". All times are seconds.
"""

import heapq
from bisect import bisect_right
from collections import deque
from collections.abc import Callable, Iterator
from typing import NamedTuple

from .lines import ALWAYS, EXACT, NEVER, Passed, StopLine

RECENT = 64
"""How many passages of a stop line are kept for the movements that yield to it."""


class Foe:
    """A movement to which others yield: its stop line, the vehicles that passed it lately, and those on the way to
    it."""

    __slots__ = ("line", "lately", "coming")

    def __init__(self, line: StopLine) -> None:
        self.line = line
        self.lately: deque[float] = deque(maxlen=RECENT)
        self.coming: list[float] = []

    def next(self, at: float, now: float) -> float:
        """Returns when the next vehicle after a second passes, as far as that is known at the end `now` of a step: by
        vehicles that have passed, the head of the queue, and those on their way, while the line is open."""
        later = bisect_right(self.lately, at + EXACT)
        if later < len(self.lately):
            return self.lately[later]
        line = self.line
        if line.open_until <= at:
            return ALWAYS
        while self.coming and self.coming[0] <= max(at, now - EXACT):
            heapq.heappop(self.coming)
        found = self.coming[0] if self.coming else ALWAYS
        if line.queue:
            found = min(found, max(line.queue[0][0], line.ready[line.turn], line.last, now))
        return found if found <= line.open_until else ALWAYS


class Gaps(NamedTuple):
    """How a turn takes gaps: the critical gap, the follow-up time, and how many complete their turn after the green."""

    critical: float
    follow: float
    sneakers: int


class YieldLine:
    """A stop line while its movement gives way. `open_from` and `open_until` are the span in which it may; None if
    it has no such span."""

    def __init__(self, line: StopLine, foes: list[Foe], gaps: Gaps) -> None:
        self.line, self.foes, self.gaps = line, foes, gaps
        self.ready = [NEVER] * line.lanes
        self.turn = 0
        self.seek = NEVER
        """Before this second no gap is to be had."""
        self.open_from: float | None = None
        self.open_until = ALWAYS
        self.greens = 0

    def opens(self, at: float) -> None:
        """One of the greens in which the movement may turn begins."""
        self.greens += 1
        if self.open_from is None or self.open_until < at:
            self.open_from, self.seek = at, at
        self.open_until = ALWAYS

    def closes(self, at: float) -> None:
        """One of those greens ends; the span ends with the last."""
        self.greens -= 1
        if self.greens <= 0:
            self.greens, self.open_until = 0, at

    def next_foe(self, at: float, now: float) -> float:
        """Returns when the next vehicle to which the movement yields passes, after a second."""
        return min((foe.next(at, now) for foe in self.foes), default=ALWAYS)

    def passed(self, until: float, may_pass: Callable[[int], bool]) -> Iterator[Passed]:
        """Yields the vehicles that take a gap before a second; they leave the queue."""
        if self.open_from is None:
            return
        queue = self.line.queue
        end = min(until, self.open_until)
        while queue:
            arrived, vehicle = queue[0]
            at = max(arrived, self.ready[self.turn], self.seek, self.line.last, self.open_from)
            if self.line.open_until < ALWAYS:
                at = max(at, self.line.open_until)
            if at >= end or self.line.open_until == ALWAYS:
                break
            foe = self.next_foe(at, until)
            if foe - at < self.gaps.critical - EXACT:
                self.seek = foe
                continue
            if not may_pass(vehicle):
                self.seek = until
                break
            yield self.take(at)
        if self.open_until < until:
            yield from self.sneaked(until, may_pass)
            self.open_from = None

    def sneaked(self, until: float, may_pass: Callable[[int], bool]) -> Iterator[Passed]:
        """Yields the vehicles that complete their turn after the green, unless a movement to which they yield still has
        green."""
        if any(foe.line.open_until == ALWAYS for foe in self.foes) or self.line.open_until == ALWAYS:
            return
        queue = self.line.queue
        for place in range(self.gaps.sneakers * self.line.lanes):
            if not queue or queue[0][0] > self.open_until or not may_pass(queue[0][1]):
                return
            yield self.take(max(self.open_until + (1 + place // self.line.lanes) * self.gaps.follow, self.line.last))

    def take(self, at: float) -> Passed:
        """Moves the first of the queue over the line."""
        arrived, vehicle = self.line.queue.popleft()
        self.line.last, self.ready[self.turn] = at, at + self.gaps.follow
        self.turn = self.turn + 1 if self.turn + 1 < self.line.lanes else 0
        return Passed(vehicle, arrived, at)
