"""A test on the device: its acts at their times, and polls in between."""

import itertools
import time
from collections.abc import Callable
from dataclasses import dataclass, field
from typing import Any, NamedTuple

from ..cabinet.messages import SET, Reply
from ..shared.oids import VERIFY_STATUS
from ..shared.tables import Tables
from . import events, steps
from .device import NO_SUCH_NAME, READ_ONLY, Answer, Asked, Device, refusal
from .events import Events
from .hands import VALID, Hands
from .hostile import damaged_messages
from .objects import GROUPS, PED_CALLS, VEH_CALLS, bits, group, name_of
from .scripts import Script
from .steps import Act
from .watching import POLLS, SYNC_EVERY, Sample, Span, Timer, Watch

LEAD = 5
"""The polls before the first act."""
AT_ONCE = 40
"""The messages that wait for their answers at once, if each message advances the device's time by a known step."""
MOST_GAP = 600
"""The most ticks between two polls, in addition to the times in which nothing is sent."""
SETTLED = 3
"""The polls that may follow the last act, in ticks of an act without a sample after it."""


class CantTell(Exception):
    """A test can't be done, or its result can't be known: why, in words."""


@dataclass
class Done:
    """An act that was done: when, and why the device refused it, "" if it didn't; of a verification, whether the
    device found the tables valid."""

    act: Act
    span: Span
    why: str = ""
    is_valid: bool | None = None


@dataclass
class Driven:
    """What a test gave: samples and acts, in ticks since its first poll; the calls that were kept before it."""

    samples: list[Sample] = field(default_factory=list)
    acts: list[Done] = field(default_factory=list)
    vehicle_calls: int = 0
    pedestrian_calls: int = 0
    lost: int = 0
    """The polls without an answer."""
    exact: list[Sample] = field(default_factory=list)
    """The display as the device itself reported it, each change at its tick."""


class Sent(NamedTuple):
    """A message that is to be sent: the act whose effect it has, if it has one; whether it is a poll."""

    asked: Asked
    act: Act | None
    is_poll: bool


class Slot(NamedTuple):
    """A message that was sent: the act whose effect it has, if it has one; of a poll its sample."""

    act: Act | None
    sample: Sample | None
    answer: Answer | None


@dataclass
class Bench:
    """A device, and what is known of it: what is watched, how time runs, the inputs that are held, the tables that it
    had at first and those that are in force."""

    device: Device
    watch: Watch
    hands: Hands
    speed: float
    step: int
    is_stamped: bool
    original: Tables
    in_force: Tables
    command: int = 0
    has_transactions: bool = True
    was_used: bool = False
    """Whether any test has set something."""
    has_begun: bool = False
    """Whether the test that is under way has set something."""
    read: Callable[[], Tables] = Tables
    """Reads the tables of the device."""
    events: Events | None = None
    """What the device itself reports of its display."""
    advance: Callable[[float], object] = lambda seconds: None
    """Is called with the seconds of the device's time that a part of a test took."""

    def timer(self) -> Timer:
        """Returns a new timer."""
        return Timer(self.speed, self.step, self.is_stamped)


class Drive:
    """One test that is under way."""

    def __init__(self, bench: Bench, script: Script) -> None:
        self.bench, self.script = bench, script
        self.timer = bench.timer()
        self.slots: list[Slot] = []
        self.pending: list[tuple[Asked, Act | None]] = []
        self.queue = [act for act in (script.clock, script.start) if act] + list(script.acts)
        self.end = LEAD + script.ticks
        self.polls = 0
        self.tables = bench.in_force.copy()
        self.quiet_until = 0
        self.poll_at = 0.0
        """When the next poll is sent, by this machine's clock."""
        self.found = Driven()

    def run(self) -> Driven:
        """Does the test."""
        watch, device = self.bench.watch, self.bench.device
        if self.bench.events is not None:
            events.reported(self.bench.events)
        first, shown = watch.look()
        self.timer.start(first)
        calls = [group(column, number) for column in (VEH_CALLS, PED_CALLS) for number in GROUPS]
        held = device.get(calls)
        self.found.vehicle_calls = bits(held, VEH_CALLS, watch.groups) or 0
        self.found.pedestrian_calls = bits(held, PED_CALLS, watch.groups) or 0
        self.slots.append(Slot(None, Sample(Span(0, 0), shown), first))
        at = self.polled()
        while at <= self.end:
            if self.bench.step:
                self.batch(at)
            else:
                self.turn(at)
            at = self.next_tick()
            self.bench.advance(at / POLLS)
        for _ in range(SETTLED):
            self.polled()
        self.settle()
        if self.bench.events is not None:
            self.found.exact = events.samples(self.bench.events, self.timer.stamp)
        return self.found

    # which message is next

    def next_tick(self) -> int:
        """Returns the tick at which the next message will arrive, as far as the samples tell."""
        back, (span, sent) = self.last_sample()
        if self.bench.step:
            return span.last + self.bench.step * (back + 1)
        return span.first + int((time.monotonic() - sent) * POLLS * self.bench.speed)

    def last_sample(self) -> tuple[int, tuple[Span, float]]:
        """Returns how many messages were sent after the last sample, its time, and when it was received."""
        for back, slot in enumerate(reversed(self.slots)):
            if slot.sample is not None and slot.answer is not None:
                return back, (slot.sample.span, slot.answer.received)
        raise CantTell("the device answers no poll")

    def due(self, at: int) -> bool:
        """Puts the messages of the next act in the queue, if it is its time."""
        if self.pending or not self.queue or self.queue[0].at + LEAD > at:
            return False
        act = self.queue.pop(0)
        if act.kind == steps.QUIET:
            self.quiet_until = at + act.ticks
            return False
        if act.kind == steps.DAMAGED:
            self.bench.device.throw(damaged_messages(self.bench.device.community))
            self.slots.append(Slot(act, None, None))
            return True
        if self.bench.hands.is_by_channel(act):
            self.bench.hands.do(act)
            self.slots.append(Slot(act, None, None))
            return True
        cells: list[Any] = self.script.load(act.name, self.tables) if act.kind == steps.STAGE else []
        messages, place = self.bench.hands.messages(act, cells)
        self.pending = [(it, act if at == place else None) for at, it in enumerate(messages)]
        return False

    def is_immediate(self, at: int) -> bool:
        """Tells whether the next act is done without a message whose answer is awaited, and it is its time."""
        if self.pending or not self.queue or self.queue[0].at + LEAD > at:
            return False
        return self.queue[0].kind == steps.DAMAGED or self.bench.hands.is_by_channel(self.queue[0])

    # with steps: several messages at once, whose times are known

    def batch(self, at: int) -> None:
        """Sends messages from a tick on, all at once: polls, and at most one Set with a poll after it. A Set that is
        sent again can't come after a later one."""
        sent: list[Sent] = []
        while len(sent) < AT_ONCE and at <= self.end:
            if sent and self.is_immediate(at) or self.due(at):
                break
            if self.pending:
                sent += [Sent(*self.pending.pop(0), False), self.next_poll()]
                break
            sent.append(self.next_poll())
            at += self.bench.step
        self.together(sent)

    def together(self, sent: list[Sent]) -> None:
        """Sends messages at once, and takes the answers."""
        for it, answer in zip(sent, self.bench.device.exchange([it.asked for it in sent])):
            self.take(it.asked, it.act, it.is_poll, answer)

    # with a pace: one message at a time, when it is its time

    def turn(self, at: int) -> None:
        """Sends what is to be sent now, or waits until something is. A Set is between two polls, which date it."""
        did = self.due(at)
        while self.pending:
            self.together([self.next_poll(), Sent(*self.pending.pop(0), False), self.next_poll()])
        now = time.monotonic()
        if at >= self.quiet_until and (did or now >= self.poll_at):
            self.poll_at = max(self.poll_at, now) + 1 / (POLLS * self.bench.speed)
            self.polled()
            return
        until = self.queue[0].at + LEAD - at if self.queue else 1
        wait = max(0.0, until / (POLLS * self.bench.speed))
        time.sleep(min(wait, max(0.0, self.poll_at - now)) if at >= self.quiet_until else min(wait, 0.05))

    def next_poll(self) -> Sent:
        """Returns the next poll."""
        self.polls += 1
        return Sent(self.bench.watch.poll(self.polls % SYNC_EVERY == 0), None, True)

    def polled(self) -> int:
        """Polls once, and returns the tick of the next message."""
        self.together([self.next_poll()])
        return self.next_tick()

    # what comes back

    def take(self, asked: Asked, act: Act | None, is_poll: bool, answer: Answer) -> None:
        """Takes the answer to a message."""
        sample = None
        if is_poll:
            shown = self.bench.watch.display(answer)
            if shown is None:
                self.found.lost += 1
            else:
                sample = Sample(self.timer.span(answer), shown)
        elif answer.reply is None:
            what = name_of(asked.bindings[0][0])
            raise CantTell(f"the device didn't answer the Set of {what} in {self.bench.device.patience:g} s")
        elif asked.kind == SET and answer.reply.status:
            self.refused(asked, answer.reply, act)
        self.slots.append(Slot(act, sample, answer))

    def refused(self, asked: Asked, reply: Reply, act: Act | None) -> None:
        """Takes a Set that was refused. If the device doesn't have the object, the test can't go on."""
        at = reply.index - 1 if 1 <= reply.index <= len(asked.bindings) else 0
        name, value = asked.bindings[at]
        shown = value.hex() if isinstance(value, bytes) else value
        if reply.status in (NO_SUCH_NAME, READ_ONLY):
            raise CantTell(f"the device refuses to set {name_of(name)} ({refusal(reply)})")
        if act is None:
            raise CantTell(f"the device refuses {name_of(name)} = {shown} ({refusal(reply)})")

    # when each act had its effect

    def settle(self) -> None:
        """Dates the acts by the samples around them, and keeps all samples."""
        places = [at for at, slot in enumerate(self.slots) if slot.sample is not None]
        self.found.samples = [slot.sample for slot in self.slots if slot.sample is not None]
        self.refuse_jumps()
        for at, slot in enumerate(self.slots):
            if slot.act is None:
                continue
            before = max((it for it in places if it < at), default=places[0])
            after = min((it for it in places if it > at), default=places[-1])
            earlier, later = self.slots[before].sample, self.slots[after].sample
            assert earlier is not None and later is not None
            first = earlier.span.first + self.bench.step * (at - before)
            last = later.span.last - self.bench.step * (after - at)
            self.found.acts.append(self.done(slot, Span(first, max(first, last))))

    def refuse_jumps(self) -> None:
        """Refuses samples between which the device's time jumps: its sysUpTime isn't a time then."""
        allowed = MOST_GAP + sum(act.ticks for act in self.script.acts)
        for before, after in itertools.pairwise(self.found.samples):
            if after.span.first - before.span.last > allowed:
                jump = (after.span.first - before.span.last) / POLLS
                raise CantTell(f"the device's sysUpTime jumps by {jump:g} s between two polls")

    def done(self, slot: Slot, span: Span) -> Done:
        """Returns an act that was done."""
        assert slot.act is not None
        reply = slot.answer.reply if slot.answer else None
        is_valid = None
        if slot.act.kind == steps.VERIFY and slot.answer:
            is_valid = slot.answer.values().get(VERIFY_STATUS) == VALID
        return Done(slot.act, span, refusal(reply) if reply and reply.status else "", is_valid)
