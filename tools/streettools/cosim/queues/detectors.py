"""What the detectors of a street report to its cabinets: calls by phase, from vehicles that wait and vehicles that
pass."""

from .lines import StopLine
from .volumes import Flow

SPEED, SPACING = 13.4, 7.5
"""The speed at which vehicles arrive (m/s), and their spacing in a queue (m): how many fit between a detector and the
line."""


class PhaseDetectors:
    """The detectors that call one phase: those of all its movements together."""

    __slots__ = ("on", "off", "lines", "until", "seen", "is_on", "is_awake")

    def __init__(self, cabinet: int, phase: int) -> None:
        self.on = b"veh %d %d on" % (cabinet, phase)
        self.off = b"veh %d %d off" % (cabinet, phase)
        self.lines: list[tuple[StopLine, int]] = []
        """The queues to watch, each with the number of vehicles from which its detector sees it."""
        self.until = self.seen = -1.0
        """Until when vehicles that pass are on a detector; the last second at which one was."""
        self.is_on = False
        self.is_awake = False
        """Whether something may have changed: a vehicle came or passed since the last look, or drives over it."""

    def watch(self, flow: Flow, line: StopLine) -> None:
        """Adds the detectors of a movement: one at the stop line sees vehicles that wait, one further up sees a queue
        that reaches it."""
        if flow.detectors.stop:
            self.lines.append((line, 1))
        elif flow.detectors.ahead:
            self.lines.append((line, 1 + int(flow.lanes * flow.detectors.ahead * SPEED / SPACING)))

    def drove(self, at: float, occupied: float) -> None:
        """Takes a vehicle that drives over a detector at a second."""
        self.is_awake = True
        end = at + occupied
        if end > self.until:
            self.until = end

    def told(self, now: float, requests: list[bytes]) -> None:
        """Adds what has changed since the last step began: on and off both, if a vehicle came and went between."""
        is_on = self.until > now
        if not is_on:
            for line, least in self.lines:
                if len(line.queue) >= least:
                    is_on = True
                    break
        if is_on:
            if not self.is_on:
                requests.append(self.on)
        elif self.is_on:
            requests.append(self.off)
        elif self.until > self.seen:
            requests += (self.on, self.off)
        self.is_on, self.is_awake, self.seen = is_on, self.until > now, now
