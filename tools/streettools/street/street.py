"""The street: a session that advances by a pace, what it receives, and its hearers.

When a session is over, a new one begins with start-up: after the last round that a scenario may have, and when a record
is full.
"""

import asyncio
import contextlib
from collections.abc import AsyncIterator, Awaitable, Iterator
from typing import TYPE_CHECKING, Any

from ..shared.fault import Fault
from ..shared.program import Died
from ..shared.session import Answer
from ..shared.status import Status
from .carried import Unread, next_scenario
from .inputs import Inputs
from .known import Clocks, Downloads
from .pace import Pace
from .session import Over, Session, frame, reply_in

if TYPE_CHECKING:
    from .ntcip.shown import Shown

LONGEST = 1472
"""The octets of the longest message that a cabinet may be given."""
SPARE = 20_000
"""How many ticks before its last one a session changes."""
MOST_ROUNDS, MOST_TICKS = 86_400, 55_296_000
"""The limits of a scenario: rounds; ticks of all cabinets together."""


Manager = tuple[str, int]
"""Where a manager's datagram came from: its address and port."""
NOBODY: Manager = ("", 0)


def rounds_for(scenario: dict[str, Any]) -> int:
    """Returns the most rounds that a scenario of these cabinets and ticks may have."""
    of_a_round: int = len(scenario["cabinets"]) * scenario["ticks"]
    return min(MOST_ROUNDS, MOST_TICKS // of_a_round)


class Hearer:
    """Hears what a street receives and answers, and may bring inputs. A record and a panel are hearers."""

    called = "what hears of the street"
    """What a fault is said to be in."""
    stride = 600
    """How many ticks may be taken at once before inputs are asked for."""

    def began(self, scenario: dict[str, Any]) -> None:
        """A session begins."""

    def heard(self, request: bytes | None, answer: Answer) -> None:
        """A request was answered; None means the scenario, or the end of input."""

    def ended(self, died: Died | None) -> None:
        """The session is over, or its program died."""

    def ended_round(self, ticks: int) -> None:
        """A round was ended, which took `ticks` ticks, since it was full of messages."""

    def due_inputs(self, ticks: int) -> list[bytes]:
        """Returns the inputs that are pending when `ticks` ticks were taken, as requests."""
        return []

    async def advanced(self) -> None:
        """Time has advanced: what reads objects of cabinets from time to time does it here."""

    def is_full(self) -> bool:
        """Tells whether the session should end here."""
        return False


class Street:
    """Cabinets that live in a session."""

    def __init__(self, program: str, scenario: dict[str, Any], pace: Pace, hearers: list[Hearer]) -> None:
        self.program = program
        self.scenario: dict[str, Any] = scenario | {"rounds": rounds_for(scenario)}
        self.pace = pace
        self.hearers = hearers
        self.called: dict[int, str] = {}
        """The names of intersections, by their numbers."""
        self.after_message = 0
        """How many ticks go by after each datagram."""
        self.shown: Shown
        """What the front answers from, where there is one."""
        self.session_ticks: int | None = None
        """After how many ticks a session changes at the latest."""
        self.stops_at_end = self.is_replaying = False
        self.order = asyncio.Lock()
        self.session: Session
        self.closed: Session | None = None
        self.fault: Exception | None = None
        self.inputs, self.downloads, self.clocks = Inputs(), Downloads(), Clocks()
        self.changing: asyncio.Future[None] | None = None
        """While a session changes: messages wait for it."""
        self.turns = 0
        """How many turns are under way: a session changes between them."""
        self.is_carried = False
        """Whether the next session begins with what the cabinets have."""
        self.lost_at = 0
        """The last session that began without what the cabinets had in the one before it, counted from 0."""
        self.is_restarting = False
        """Whether the session changes as soon as it can, as a user has asked for."""
        self.alarms: dict[int, set[str]] = {}
        """The alarms that a user has turned on, by cabinet (`acts`)."""
        self.ended = asyncio.Event()
        self.woken = asyncio.Event()
        self.renewals = 0

    async def open(self) -> None:
        """Begins a session."""
        self.inputs.began(self.scenario)
        self.downloads.began(self.scenario)
        self.clocks.began(self.scenario)
        for hearer in self.hearers:
            with failing(hearer):
                hearer.began(self.scenario)
        session = Session(self.program, self.scenario, self.heard)
        await session.open()
        self.session = session
        self.pace.restart()

    def name_of(self, cabinet: int) -> str:
        """Returns what a cabinet is called: by its intersection, or by its number."""
        return self.called.get(cabinet) or f"cabinet {cabinet}"

    def community(self) -> bytes:
        """Returns the community of the cabinets' messages."""
        given: str = self.scenario.get("community", "public")
        return given.encode()

    def heard(self, request: bytes | None, answer: Answer) -> None:
        """Gives an answer to all hearers; a fault of one of them names it."""
        self.inputs.heard(request, answer)
        self.downloads.heard(request, answer)
        self.clocks.heard(request, answer)
        for hearer in self.hearers:
            with failing(hearer):
                hearer.heard(request, answer)

    async def message(self, cabinet: int, octets: bytes, stream: str = "priority") -> bytes | None:
        """Returns a cabinet's reply to a message; None if it doesn't answer, or if the street begins a new session."""
        if len(octets) > LONGEST:
            return None
        self.make_room()
        try:
            return reply_in(await self.session.ask(frame(cabinet, octets, stream)))
        except Over:
            return None

    async def messages(self, cabinet: int, several: list[bytes]) -> list[bytes | None]:
        """Returns a cabinet's replies to messages, between which it receives nothing else."""
        try:
            self.session.in_round += len(several)
            under_way = [self.session.send(it, it) for it in (frame(cabinet, octets) for octets in several)]
            return [reply_in(answer) for answer in await asyncio.gather(*under_way)]
        except Over:
            return [None] * len(several)

    async def datagram(self, cabinet: int, octets: bytes, manager: Manager = NOBODY) -> bytes | None:
        """Returns a cabinet's reply to a datagram, which comes after the pending ticks. If messages advance time, it
        advances after the reply, and the next message waits."""
        if self.changing is not None:
            await self.gate()
        if not self.after_message:
            self.session.send_all_ticks(self.pace.due())
            return await self.message(cabinet, octets)
        async with self.turn():
            return await self.message(cabinet, octets)

    @contextlib.asynccontextmanager
    async def turn(self) -> AsyncIterator[None]:
        """The turn of one datagram, whatever is asked of the cabinets for it. It begins after the pending ticks; the
        ticks that a message takes are taken at its end."""
        await self.gate()
        self.turns += 1
        try:
            if not self.after_message:
                self.session.send_all_ticks(self.pace.due())
                yield
                return
            async with self.order:
                yield
                await self.session.take(self.after_message)
                await self.advanced()
        finally:
            self.turns -= 1

    def make_room(self) -> None:
        """Ends a round that is almost full, as when time is stopped and messages arrive: the program keeps them until
        their round is over."""
        if ticks := self.session.make_room():
            for hearer in self.hearers:
                hearer.ended_round(ticks)

    async def input(self, request: bytes) -> bool:
        """Tells a cabinet of an input from the street; returns whether that was taken."""
        await self.gate()
        self.make_room()
        try:
            return not await self.session.ask(request)
        except Over:
            return False

    async def live(self) -> None:
        """Advances time until the street is to end; raises the fault that ended it, as when the program crashes."""
        while not self.ended.is_set():
            await self.take(self.pace.due())
            if self.session.is_over:
                if not await self.renewed():
                    return
            elif self.is_restarting or not self.ticks_left() or any(hearer.is_full() for hearer in self.hearers):
                await self.change()
            else:
                await self.pause(self.pace.wait())
        if self.fault:
            raise self.fault

    async def take(self, count: int) -> None:
        """Takes ticks, and between them what hearers bring."""
        stride = min((hearer.stride for hearer in self.hearers), default=Hearer.stride)
        while count and not self.session.is_over and not self.ended.is_set():
            if not self.ticks_left():
                self.pace.step(count)
                return
            for hearer in self.hearers:
                with failing(hearer):
                    due = hearer.due_inputs(self.session.taken)
                for request in due:
                    await self.input(request)
            now = min(count, stride, self.ticks_left())
            await self.session.take(now)
            await self.advanced()
            count -= now

    async def advanced(self) -> None:
        """Lets hearers do what they do when time has advanced."""
        for hearer in self.hearers:
            with failing(hearer):
                await hearer.advanced()

    def ticks_left(self) -> int:
        """Returns how many ticks are left until the session changes: that is some ticks before its last one, which
        leaves time to read what is carried over. A session with which the street ends doesn't change."""
        total: int = self.scenario["rounds"] * self.scenario["ticks"]
        last = total - min(total // 4, SPARE)
        if self.session_ticks is not None and not self.is_replaying:
            last = min(last, self.session_ticks)
        return MOST_TICKS if self.stops_at_end else max(0, last - self.session.taken)

    async def change(self) -> None:
        """Ends a session, so that the next one continues with what the cabinets have; messages wait meanwhile. If that
        can't be read, the next one begins as the first did."""
        self.is_restarting = False
        self.changing = asyncio.get_running_loop().create_future()
        while self.turns:
            await asyncio.sleep(0.001)
        with contextlib.suppress(Unread):
            self.scenario = await next_scenario(self)
            self.is_carried = True
        with contextlib.suppress(Over):
            await self.session.finish()

    def restart(self) -> None:
        """Lets all cabinets start up again, with the tables and the rest that a new session carries over."""
        self.is_restarting = True
        self.wake()

    async def gate(self) -> None:
        """Waits while a session changes."""
        while self.changing is not None:
            await asyncio.shield(self.changing)

    async def pause(self, seconds: float) -> None:
        """Waits, or until it is woken."""
        self.woken.clear()
        try:
            await asyncio.wait_for(self.woken.wait(), seconds)
        except asyncio.TimeoutError:
            pass

    def wake(self) -> None:
        """Lets pending work be done at once."""
        self.woken.set()

    def end(self) -> None:
        """Tells the street to end."""
        self.ended.set()
        self.wake()

    def fail(self, fault: Exception) -> None:
        """Ends the street with a fault, the first one if there are several."""
        self.fault = self.fault or fault
        self.end()

    async def renewed(self) -> bool:
        """Begins a new session if one is over, unless the street ends with it; returns whether it does."""
        await self.close()
        if self.stops_at_end:
            return False
        self.renewals += 1
        is_carried, self.is_carried = self.is_carried, False
        self.lost_at = self.lost_at if is_carried else self.renewals
        await self.open()
        if is_carried:
            await self.keep_dates()
        if self.changing is not None:
            self.changing.set_result(None)
            self.changing = None
        return True

    async def keep_dates(self) -> None:
        """Tells a session that follows another one the dates that were set: its record has them then."""
        for cabinet in sorted(self.clocks.dated):
            clock = self.scenario["cabinets"][cabinet - 1].get("clock", 0)
            await self.message(cabinet, self.clocks.setting(cabinet, clock, self.community()))

    async def close(self) -> None:
        """Ends the session, if that wasn't done, and reports it to all hearers, even if one of them fails; then raises
        the first fault, or the program's crash."""
        if self.closed is self.session:
            return
        self.closed = self.session
        fault = await fault_of(self.session.close())
        for hearer in self.hearers:
            try:
                with failing(hearer):
                    hearer.ended(fault if isinstance(fault, Died) else None)
            except FAULTS as its:
                fault = fault or its
        if fault:
            raise fault


FAULTS = (Fault, OSError)
"""What ends a street before its time."""


async def fault_of(done: Awaitable[None]) -> Exception | None:
    """Returns the fault with which something ends, None if it ends without one."""
    try:
        await done
    except FAULTS as fault:
        return fault
    return None


@contextlib.contextmanager
def failing(hearer: Hearer) -> Iterator[None]:
    """Makes a fault of a hearer that names no file name the hearer."""
    try:
        yield
    except (OSError, Fault):
        raise
    except Exception as fault:
        raise Fault(f"{hearer.called} failed: {type(fault).__name__}: {fault}", Status.FILE) from fault
