"""A device under load: many pollers, damaged messages and a bad line at the same time.

Nothing is set. The tables are read before and after: they must be the same, since no download was sent.
"""

import asyncio
import contextlib
import functools
import statistics
from collections.abc import Iterator
from dataclasses import dataclass, field
from typing import Any, cast

from ..cabinet.messages import GET, Malformed, message, reply_of
from ..shared.ber import Arcs
from ..street.line import IN, OUT, Line
from ..street.ports import Wire
from .hostile import hostile_messages
from .objects import GREENS, WALKS, YELLOWS, group
from ..shared.oids import STATUS

POLLED = [*(group(it, 1) for it in (YELLOWS, GREENS, WALKS)), STATUS]
PATIENCE = 2.0
EVERY = 0.1
HOSTILE = 200


@dataclass
class Loaded:
    """The result: how many polls were sent and answered, how long each took, the damaged messages that were sent and
    those of them that were answered, and the objects of the plan that differ afterwards."""

    pollers: int
    seconds: float
    polls: int = 0
    lost_on_line: int = 0
    times: list[float] = field(default_factory=list)
    wrong: int = 0
    hostile: int = 0
    changed: list[str] = field(default_factory=list)
    is_alive: bool = True
    answers: int = 0
    alone: float = 0.0
    """The median time of an answer without load, in seconds."""

    def is_wrong(self) -> bool:
        """Tells whether the device failed: the plan has changed, it doesn't answer any more, or answered wrongly."""
        return bool(self.changed) or not self.is_alive or self.wrong > 0

    def words(self) -> Iterator[str]:
        """Yields the result in words."""
        share = 100 * self.answers / self.polls if self.polls else 0
        yield (
            f"under load: {self.pollers} pollers for {self.seconds:g} s, {self.hostile} damaged messages: "
            f"{self.answers} of {self.polls} polls answered ({share:.0f}%)"
        )
        if self.times:
            ordered = sorted(1000 * it for it in self.times)
            late = ordered[int(0.95 * (len(ordered) - 1))]
            yield (
                f"under load: half of the answers within {statistics.median(ordered):.1f} ms "
                f"({1000 * self.alone:.1f} ms without load), 95% within {late:.1f} ms, the last after "
                f"{ordered[-1]:.1f} ms"
            )
        if self.wrong:
            yield f"under load: {self.wrong} answers are not those to their polls"
        if not self.is_alive:
            yield "under load: the device doesn't answer afterwards"
        if self.changed:
            more = f" and {len(self.changed) - 3} more" if len(self.changed) > 3 else ""
            yield f"under load: the plan has changed without a download: {', '.join(self.changed[:3])}{more}"
        elif self.is_alive:
            yield "under load: the plan is the same as before"

    def as_json(self) -> dict[str, Any]:
        """Returns the result as JSON."""
        return {
            "pollers": self.pollers, "seconds": self.seconds, "polls": self.polls, "answers": self.answers,
            "hostile": self.hostile, "wrong": self.wrong, "alive": self.is_alive, "changed": self.changed,
            "median_ms": round(1000 * statistics.median(self.times), 2) if self.times else None,
        }  # fmt: skip


class Poller(asyncio.DatagramProtocol):
    """A manager that polls, over a line that may be bad."""

    def __init__(self, found: Loaded, wire: Wire, number: int, community: bytes) -> None:
        self.found, self.wire, self.number, self.community = found, wire, number, community
        self.waiting: dict[int, float] = {}
        self.asked = 1000 * number
        self.transport: asyncio.DatagramTransport

    def connection_made(self, transport: asyncio.BaseTransport) -> None:
        self.transport = cast(asyncio.DatagramTransport, transport)

    def send(self, octets: bytes) -> None:
        """Sends octets, if the socket is open."""
        if not self.transport.is_closing():
            self.transport.sendto(octets)

    def pass_on(self, octets: bytes) -> None:
        """Sends octets over the line."""
        self.wire.passes(IN, 1, ("", self.number), octets, self.send)

    def poll(self) -> None:
        """Sends a poll."""
        self.asked += 1
        self.waiting[self.asked] = asyncio.get_running_loop().time()
        self.found.polls += 1
        self.pass_on(message(GET, self.asked, [(name, None) for name in POLLED], self.community))

    def datagram_received(self, data: bytes, client: tuple[Any, ...]) -> None:
        self.wire.passes(OUT, 1, ("", self.number), data, functools.partial(self.take, whole=data))

    def take(self, octets: bytes, whole: bytes) -> None:
        """Takes an answer; one that the line has damaged is ignored."""
        if octets != whole:
            return
        try:
            reply = reply_of(octets)
        except (Malformed, ValueError, IndexError):
            self.found.wrong += 1
            return
        since = self.waiting.pop(reply.number, None)
        if since is None:
            return
        self.found.answers += 1
        self.found.times.append(asyncio.get_running_loop().time() - since)
        if not reply.status and [name for name, _, _ in reply.bindings] != POLLED:
            self.found.wrong += 1

    def error_received(self, fault: Exception) -> None:
        """Nothing listens: the poll stays without an answer."""


async def polls(poller: Poller, until: float) -> None:
    """Polls until a time."""
    while asyncio.get_running_loop().time() < until:
        poller.poll()
        await asyncio.sleep(EVERY)


async def attacked(poller: Poller, until: float, found: Loaded) -> None:
    """Sends damaged messages until a time, each as it is."""
    several = hostile_messages(poller.community, HOSTILE)
    while asyncio.get_running_loop().time() < until:
        for octets in several:
            if asyncio.get_running_loop().time() >= until:
                return
            poller.send(octets)
            found.hostile += 1
            await asyncio.sleep(0.002)


async def run(where: tuple[str, int], community: bytes, found: Loaded, line: Line | None) -> None:
    """Runs the load."""
    loop = asyncio.get_running_loop()
    until = loop.time() + found.seconds
    made = []
    for number in range(1, found.pollers + 2):
        wire = Wire(line if number <= found.pollers else None)
        maker = functools.partial(Poller, found, wire, number, community)
        made.append(await loop.create_datagram_endpoint(maker, remote_addr=where))
    try:
        work = [polls(poller, until) for _, poller in made[:-1]]
        await asyncio.gather(*work, attacked(made[-1][1], until, found))
        with contextlib.suppress(asyncio.TimeoutError):
            await asyncio.wait_for(asyncio.sleep(PATIENCE), PATIENCE + 1)
    finally:
        for transport, _ in made:
            transport.close()


def differing(before: dict[Arcs, int | bytes], after: dict[Arcs, int | bytes]) -> list[str]:
    """Returns the objects of a plan that differ."""
    from .objects import name_of

    names = sorted(it for it in before.keys() | after.keys() if before.get(it) != after.get(it))
    return [name_of(it) for it in names]


def of_plan(objects: dict[Arcs, int | bytes]) -> dict[Arcs, int | bytes]:
    """Returns the objects of a walk that are part of a plan: without the clock and the command."""
    from ..shared.oids import CLOCK, CONTROL

    return {name: value for name, value in objects.items() if name not in (CLOCK, CONTROL)}
