"""A stop line: vehicles wait before it in a queue that takes no room, and pass it one after another in green.

docs/QUEUES.md, "A queue". All times are seconds; nothing here knows of cabinets.
"""

from collections import deque
from collections.abc import Callable
from typing import NamedTuple

from .volumes import Saturation

NEVER = float("-inf")
ALWAYS = float("inf")
MANY = 1_000_000_000
EXACT = 1e-9
"""Sums of seconds are as exact as this."""


class Passed(NamedTuple):
    """A vehicle has passed: its number, when it reached the line, when it passed it."""

    vehicle: int
    arrived: float
    released: float


class StopLine:
    """The stop line of a movement. `queue` has the vehicles that have reached the line and haven't passed it, in their
    order: when each reached it, and its number. The line is open from `opens` to `open_until`, both included.

    A green rarely ends with a headway. The part of the next headway that a lane has used when it closes on a queue is
    carried over: the first vehicle of the next green passes that much earlier. So greens discharge on average what
    their effective lengths give, not the whole vehicles below that."""

    __slots__ = ("gap", "lost", "use", "lanes", "queue", "ready", "turn", "last", "open_until")

    def __init__(self, lanes: int, saturation: Saturation) -> None:
        self.gap, self.lost, self.use = 3600.0 / saturation.flow, saturation.lost, saturation.yellow
        self.lanes = lanes
        self.queue: deque[tuple[float, int]] = deque()
        self.ready = [NEVER] * lanes
        """From when on each lane can have the next vehicle pass."""
        self.turn = 0
        """The lane whose turn it is."""
        self.last = NEVER
        self.open_until = NEVER

    def opens(self, at: float) -> None:
        """Begins green. A lane in which a vehicle waits loses the start-up lost time, and then a headway for its first
        vehicle, less what it carries over."""
        waiting, left = self.waiting(at), self.waiting(self.open_until)
        for place in range(self.lanes):
            lane = (self.turn + place) % self.lanes
            carried = self.carried(lane) if place < left else 0.0
            begin = at + self.lost + self.gap - carried if place < waiting else at
            self.ready[lane] = max(self.ready[lane] - carried, begin)
        self.last = max(self.last, at)
        self.open_until = ALWAYS

    def waiting(self, at: float) -> int:
        """Returns in how many lanes a vehicle waits at a second."""
        found = 0
        for arrived, _ in self.queue:
            if arrived > at or found == self.lanes:
                break
            found += 1
        return found

    def carried(self, lane: int) -> float:
        """Returns the part of its next headway that a lane had used when the line closed, in seconds."""
        return min(max(self.open_until - (self.ready[lane] - self.gap), 0.0), self.gap)

    def closes(self, at: float) -> None:
        """Ends green. A vehicle that reaches the line within the part of the yellow that is used can't stop, and
        passes."""
        self.open_until = min(self.open_until, at + self.use)

    def discharged(self, until: float, may_pass: Callable[[int], bool] | None = None, most: int = MANY) -> list[Passed]:
        """Returns the vehicles that pass before a second, while the line is open; they leave the queue. If `may_pass`
        is false for the first one, the room for it is missing, and it is tried again at that second. At most `most`
        vehicles pass."""
        queue, ready = self.queue, self.ready
        passed: list[Passed] = []
        end = self.open_until + EXACT
        while queue and len(passed) < most:
            arrived, vehicle = queue[0]
            at = max(arrived, ready[self.turn], self.last)
            if at >= until or at > end:
                break
            if may_pass is not None and not may_pass(vehicle):
                self.last = max(self.last, until)
                break
            queue.popleft()
            passed.append(Passed(vehicle, arrived, at))
            self.last, ready[self.turn] = at, at + self.gap
            self.turn = self.turn + 1 if self.turn + 1 < self.lanes else 0
        return passed
