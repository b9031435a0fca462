"""What is counted of phases, cabinets and a street in a run. Counts of several can be put together."""

from collections import Counter
from collections.abc import Iterable
from dataclasses import dataclass, field

from ..cosim.movements import Count


@dataclass(slots=True)
class Spread:
    """How many lengths there were, in ticks or rounds, their sum, the least and the greatest."""

    count: int = 0
    total: int = 0
    least: int | None = None
    greatest: int | None = None

    def add(self, length: int) -> None:
        """Counts a length."""
        self.count += 1
        self.total += length
        if self.least is None or length < self.least:
            self.least = length
        if self.greatest is None or length > self.greatest:
            self.greatest = length

    @staticmethod
    def of(parts: Iterable["Spread"]) -> "Spread":
        """Returns several as one."""
        there = [it for it in parts if it.count]
        if not there:
            return Spread()
        least = min(it.least for it in there if it.least is not None)
        greatest = max(it.greatest for it in there if it.greatest is not None)
        return Spread(sum(it.count for it in there), sum(it.total for it in there), least, greatest)


@dataclass(slots=True)
class PhaseCounts:
    """What is counted of a phase."""

    services: int = 0
    green: Spread = field(default_factory=Spread)
    green_ticks: int = 0
    ticks: int = 0
    endings: Counter[str] = field(default_factory=Counter)
    wait: Spread = field(default_factory=Spread)
    waiting: int = 0
    walks: int = 0
    walk_wait: Spread = field(default_factory=Spread)
    walk_waiting: int = 0


@dataclass(slots=True)
class CabinetCounts:
    """What is counted of a cabinet."""

    zeros: int = 0
    met: int = 0
    pickups: int = 0
    cycles: Spread = field(default_factory=Spread)
    seconds: Spread = field(default_factory=Spread)
    coordinated: int = 0
    ticks: int = 0
    accepted: int = 0
    refused: int = 0
    fails: int = 0
    failed_rounds: Spread = field(default_factory=Spread)
    still_failed: int = 0
    notes: int = 0


@dataclass(slots=True)
class StreetCounts:
    """The bands of a street: by the plan, in ticks, and those that came out in the trace, one way and the other. `seen`
    has those that neither the beginning nor the end of what is measured cuts, `met` the ticks of all."""

    planned: tuple[int | None, int | None] = (None, None)
    seen: tuple[Spread, Spread] = field(default_factory=lambda: (Spread(), Spread()))
    starts: int = 0
    met: tuple[int, int] = (0, 0)


@dataclass(slots=True)
class RunCounts:
    """What is counted of a run; `traffic` has the vehicles of each cabinet and phase, where a study has volumes."""

    phases: dict[tuple[int, int], PhaseCounts]
    cabinets: dict[int, CabinetCounts]
    street: StreetCounts
    traffic: dict[tuple[int, int], Count] = field(default_factory=dict)
