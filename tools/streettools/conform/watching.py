"""The device's display over time: polls, each with the time at which the device answered it.

Times are ticks of 0.1 s of the device. The device's own sysUpTime dates an answer if it counts; else this machine's
clock dates it, between the moments at which the poll was sent and answered.
"""

import math
from typing import NamedTuple

from ..cabinet.messages import GET
from ..shared.ber import Arcs
from ..shared.fault import Fault
from ..shared.oids import STATUS
from .device import Answer, Asked, Device, Unanswered
from .objects import (
    DONT_WALKS, GREENS, GROUPS, PED_CLEARS, PHASE_ONS, REDS, SYNC_STATUS, UP_TIME, WALKS, YELLOWS, Display, display_of,
    group, stage_of,
)  # fmt: skip

NEEDED = (YELLOWS, GREENS)
SHOWN = (REDS, YELLOWS, GREENS, DONT_WALKS, PED_CLEARS, WALKS, PHASE_ONS)
POLLS = 10
"""The polls in a second of the device's time."""
SYNC_EVERY = 10
"""Every how many polls the place in the cycle is asked."""


class Restarted(Fault):
    """The device has restarted."""


class Span(NamedTuple):
    """The first and the last tick at which something may have happened."""

    first: int
    last: int


class Sample(NamedTuple):
    """What the device showed at some time."""

    span: Span
    display: Display


class Timer:
    """Dates answers, in ticks since the first one. `speed` is the device's time as a multiple of real time; 0 if each
    message advances it by `step` ticks."""

    def __init__(self, speed: float, step: int, is_stamped: bool) -> None:
        self.speed, self.step, self.is_stamped = speed, step, is_stamped
        self.first: Answer | None = None
        self.stamp = 0
        self.last = 0

    def start(self, answer: Answer) -> None:
        """Takes an answer as time 0."""
        self.first, self.last = answer, 0
        self.stamp = answer.values().get(UP_TIME, 0)

    def span(self, answer: Answer) -> Span:
        """Returns when an answer was given; raises Restarted if the device's time went back. A device that runs by
        itself may read its time and its display apart, but both while the poll is under way."""
        assert self.first is not None
        if self.is_stamped:
            past = answer.values().get(UP_TIME, 0) - self.stamp
            if past < self.last:
                raise Restarted("the device restarted: its sysUpTime went back")
            self.last = past
            apart = 0 if self.step else int(POLLS * self.speed * (answer.received - answer.sent))
            return Span(max(0, past // 10 - apart), -(-past // 10) + apart)
        scale = POLLS * self.speed
        first = math.floor(scale * (answer.sent - self.first.received))
        return Span(max(0, first), math.ceil(scale * (answer.received - self.first.sent)))


class Watch:
    """What is asked of a device in each poll: the objects that it has."""

    def __init__(self, device: Device) -> None:
        self.device = device
        columns = {number: [group(it, number) for it in SHOWN] for number in GROUPS}
        others: list[Arcs] = [UP_TIME, STATUS, SYNC_STATUS]
        found = device.get([*columns[1], *others])
        if any(group(it, 1) not in found for it in NEEDED):
            raise Fault(f"{device.where}: it doesn't have phaseStatusGroupYellows.1 and phaseStatusGroupGreens.1")
        more = device.get(columns[2])
        self.groups = GROUPS if all(group(it, 2) in more for it in NEEDED) else GROUPS[:1]
        self.names = [it for it in (*columns[1], *columns[2]) if it in found or it in more]
        self.names += [it for it in (UP_TIME, STATUS) if it in found]
        self.has_time, self.has_sync = UP_TIME in found, SYNC_STATUS in found
        self.has_clearance = group(PHASE_ONS, 1) in found
        self.stages: list[Arcs] = []

    def phases(self) -> int:
        """Returns the number of phases that the device shows."""
        return 8 * len(self.groups)

    def use(self, preempts: set[int], phases: set[int]) -> None:
        """Takes the preempts whose stages are watched, of those that the device reports. Phases above 8 are only asked
        if one of `phases` is above 8."""
        known = self.device.get([stage_of(it) for it in sorted(preempts)])
        self.stages = list(known)
        if self.groups == GROUPS and max(phases, default=0) <= 8:
            self.groups = GROUPS[:1]
            left_out = {group(it, 2) for it in SHOWN}
            self.names = [it for it in self.names if it not in left_out]

    def poll(self, with_sync: bool) -> Asked:
        """Returns a poll."""
        more = [SYNC_STATUS] if with_sync and self.has_sync else []
        return Asked(GET, [(name, None) for name in (*self.names, *self.stages, *more)])

    def display(self, answer: Answer) -> Display | None:
        """Returns what an answer shows; None if it isn't an answer without a fault, or lacks an object of the poll."""
        values = answer.values()
        return display_of(values, self.groups) if all(it in values for it in self.names) else None

    def look(self) -> tuple[Answer, Display]:
        """Returns what the device shows now."""
        poll = self.poll(False)
        answer = self.device.ask(poll.kind, poll.bindings)
        shown = self.display(answer)
        if shown is None:
            raise Unanswered(f"{self.device.where} answers a poll with an error")
        return answer, shown
