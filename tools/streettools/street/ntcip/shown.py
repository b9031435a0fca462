"""What the front answers from: the last frame of each cabinet, and the inputs of its vehicle detectors."""

from dataclasses import dataclass, field
from typing import Any

from ...shared.session import Answer
from ..street import Hearer, Street

PERIOD = 60
"""The seconds of a period of volumes and occupancies."""
PERIOD_TICKS = 10 * PERIOD
SEQUENCES = 256
DARK = "R" * 16
HALF_PERCENT = 200
"""The parts of an occupancy: half a percent of the period each."""


@dataclass
class Frame:
    """What a cabinet shows: the colours of its phases, since when each is so, and its mode."""

    vehicles: str = DARK
    mode: str = "S"
    since: list[int] = field(default_factory=lambda: [0] * 16)


class Frames(Hearer):
    """The last frame line of each cabinet, by its number."""

    def __init__(self) -> None:
        self.of: dict[int, Frame] = {}

    def began(self, scenario: dict[str, Any]) -> None:
        self.of = {number: Frame() for number in range(1, len(scenario["cabinets"]) + 1)}

    def heard(self, request: bytes | None, answer: Answer) -> None:
        for line in answer:
            if line.startswith(b"F "):
                _, cabinet, tick, vehicles, _, mode, *_ = line.decode("ascii").split(" ")
                self.take(self.of[int(cabinet)], int(tick), vehicles, mode)

    def take(self, frame: Frame, tick: int, vehicles: str, mode: str) -> None:
        """Takes over a frame."""
        if vehicles != frame.vehicles:
            for at, (before, now) in enumerate(zip(frame.vehicles, vehicles)):
                if before != now:
                    frame.since[at] = tick
        frame.vehicles, frame.mode = vehicles, mode


@dataclass
class Count:
    """The vehicles of a detector in a period: how many have come, how long it was on, since when it is."""

    volume: int = 0
    ticks: int = 0
    since: int | None = None


class Volumes(Hearer):
    """The vehicles at each detector, by period of the street's time."""

    def __init__(self) -> None:
        self.counts: dict[tuple[int, int], Count] = {}
        self.last: dict[tuple[int, int], tuple[int, int]] = {}
        """By cabinet and detector: volume, and occupancy in half percents, of the last period that is over."""
        self.ticks, self.due, self.sequence, self.round_ticks = 0, PERIOD_TICKS, 0, 1

    def began(self, scenario: dict[str, Any]) -> None:
        self.round_ticks = scenario["ticks"]
        self.counts, self.ticks, self.due = {}, 0, PERIOD_TICKS

    def heard(self, request: bytes | None, answer: Answer) -> None:
        if request is not None and request.startswith(b"tick "):
            self.advance(self.ticks + int(request[5:]))

    def told(self, cabinet: int, place: int, is_on: bool, first_of: int | None) -> None:
        """Takes a detector that goes on or off, in the first tick of a round if it is the scenario's own."""
        if first_of is not None:
            self.advance((first_of - 1) * self.round_ticks)
        count = self.counts.setdefault((cabinet, place), Count())
        if is_on and count.since is None:
            count.volume, count.since = count.volume + 1, self.ticks
        elif not is_on and count.since is not None:
            count.ticks, count.since = count.ticks + self.ticks - count.since, None

    def advance(self, ticks: int) -> None:
        """Goes on to a tick, over the ends of periods."""
        while self.due <= ticks:
            self.end_period()
        self.ticks = max(self.ticks, ticks)

    def end_period(self) -> None:
        """Ends a period. A vehicle that stays on its detector is not counted again."""
        self.last, counts, self.counts = {}, self.counts, {}
        for key, it in counts.items():
            on = it.ticks + (0 if it.since is None else self.due - it.since)
            self.last[key] = (min(it.volume, 255), on * HALF_PERCENT // PERIOD_TICKS)
            if it.since is not None:
                self.counts[key] = Count(since=self.due)
        self.ticks, self.due = self.due, self.due + PERIOD_TICKS
        self.sequence = (self.sequence + 1) % SEQUENCES


class Shown(Hearer):
    """Frames and volumes of a street."""

    def __init__(self, street: Street) -> None:
        self.frames, self.volumes = Frames(), Volumes()
        self.began(street.scenario)
        street.inputs.told = self.volumes.told

    def frame(self, cabinet: int) -> Frame:
        """Returns what a cabinet shows."""
        return self.frames.of[cabinet]

    def began(self, scenario: dict[str, Any]) -> None:
        self.frames.began(scenario)
        self.volumes.began(scenario)

    def heard(self, request: bytes | None, answer: Answer) -> None:
        if request is None or request.startswith(b"tick "):
            self.frames.heard(request, answer)
            self.volumes.heard(request, answer)
