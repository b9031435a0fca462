"""Vehicles that arrive at random on a detector, by a rate an hour."""

import random
from dataclasses import dataclass

HOUR = 36_000
STAYS = 8
"""For how many ticks a vehicle is on its detector."""
MOST = 3600
"""The most vehicles an hour."""


@dataclass
class Stream:
    """Vehicles on a detector: when the next arrives, and when the present one leaves."""

    rate: int
    next: float
    leaves: int | None = None


class Streams:
    """The streams of a street, by cabinet and phase."""

    def __init__(self, seed: int | None = None) -> None:
        self.draw = random.Random(seed)
        self.of: dict[tuple[int, int], Stream] = {}

    def set(self, cabinet: int, phase: int, rate: int, now: int) -> None:
        """Sets the rate from now on, in vehicles an hour; 0 stops the stream."""
        if rate:
            self.of[cabinet, phase] = Stream(rate, now + self.gap(rate))
        elif (cabinet, phase) in self.of:
            self.of[cabinet, phase].rate = 0

    def restart(self) -> None:
        """Begins again at tick 0, when detectors are off."""
        for it in self.of.values():
            it.next, it.leaves = self.gap(it.rate) if it.rate else 0, None

    def gap(self, rate: int) -> float:
        """Draws the ticks until the next vehicle: at least those for which a vehicle stays, and one more."""
        return max(STAYS + 1, self.draw.expovariate(rate / HOUR))

    def rates(self) -> dict[str, int]:
        """Returns the vehicles an hour of each stream."""
        return {f"{cabinet} {phase}": it.rate for (cabinet, phase), it in self.of.items() if it.rate}

    def due(self, now: int) -> list[bytes]:
        """Returns the inputs that are pending by a tick."""
        found = []
        for (cabinet, phase), it in list(self.of.items()):
            if it.leaves is not None and it.leaves <= now:
                it.leaves = None
                found.append(b"veh %d %d off" % (cabinet, phase))
            if it.leaves is None and not it.rate:
                del self.of[cabinet, phase]
            elif it.leaves is None and it.next <= now:
                it.leaves, it.next = now + STAYS, now + self.gap(it.rate)
                found.append(b"veh %d %d on" % (cabinet, phase))
        return found
