"""How time advances: by a monotonic clock, at some speed, or by steps."""

import time
from collections.abc import Callable

TICKS_A_SECOND = 10
MOST_BEHIND = 600
"""How many ticks are made up for at most after a pause of the machine; any more are left out."""


class Pace:
    """Says how many ticks are pending. With speed 0 time stops, except for the steps that are asked for."""

    def __init__(self, speed: float, now: Callable[[], float] = time.monotonic) -> None:
        self.speed = speed
        self.now = now
        self.since = now()
        self.rest = 0.0
        self.steps = 0

    def due(self) -> int:
        """Returns how many ticks have become pending since the last call."""
        now = self.now()
        self.rest += (now - self.since) * TICKS_A_SECOND * self.speed
        self.since = now
        whole = int(self.rest)
        self.rest -= whole
        count, self.steps = min(whole, max(MOST_BEHIND, int(MOST_BEHIND * self.speed))) + self.steps, 0
        return count

    def wait(self) -> float:
        """Returns in how many seconds the next tick becomes pending; a quarter of a second if time is stopped."""
        return (1 - self.rest) / (TICKS_A_SECOND * self.speed) if self.speed else 0.25

    def restart(self) -> None:
        """Lets time advance from now; the time before makes no tick pending."""
        self.since = self.now()

    def set(self, speed: float) -> None:
        """Changes the speed from now on; ticks that were pending stay pending."""
        self.steps += self.due()
        self.speed = speed

    def step(self, count: int) -> None:
        """Makes `count` ticks pending at once."""
        self.steps += count
