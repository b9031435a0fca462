"""A session of the program (`streettools.shared.session`), for callers that ask at the same time.

Requests go out in the order in which they are asked, and answers come in the same order. A pipe can hold all that are
without answer at once, so that neither side waits for the other.
"""

import asyncio
import collections
import contextlib
from collections.abc import Callable
from typing import Any, NamedTuple

from ..shared.program import Died, Late, end_group, live_in_loop, one_line
from ..shared.session import PIECE, SECONDS, Answer, Answers, Rounds, scenario_line

MOST_OF_A_ROUND = 90_000
"""How many inputs and messages may be asked in a round before it is ended. The program takes 100,000."""
MOST = 16
"""How many requests may be without answer at once. A request has at most 2,962 bytes, and a pipe holds 65,536."""

Heard = Callable[[bytes | None, Answer], None]
"""Is called with each request and its answer; None means the scenario, or the end of input."""


def frame(cabinet: int, octets: bytes, stream: str = "priority") -> bytes:
    """Returns the request by which a cabinet gets a message."""
    return b"frame %d %b %b" % (cabinet, stream.encode(), octets.hex().encode())


def reply_in(lines: Answer) -> bytes | None:
    """Returns the reply in the answer to such a request, None if the cabinet is silent."""
    digits = lines[-1].rsplit(b" ", 1)[1]
    return None if lines[-1][:1] == b"?" or digits == b"-" else bytes.fromhex(digits.decode())


class Asked(NamedTuple):
    """A line that was given: the request in it, and its answer to come."""

    request: bytes | None
    line: bytes
    answer: "asyncio.Future[Answer]"


class Over(Exception):
    """The session is over, so that a request has no answer."""


class Session:
    """A session that is held by one process of the program."""

    def __init__(self, program: str, scenario: dict[str, Any], heard: Heard, seconds: float = SECONDS) -> None:
        self.program = program
        self.scenario = scenario
        self.heard = heard
        self.seconds = seconds
        """How long the program may write nothing while it owes an answer."""
        self.rounds = Rounds(scenario["ticks"])
        self.queued: collections.deque[Asked] = collections.deque()
        self.waiting: collections.deque[Asked] = collections.deque()
        self.in_round = 0
        """How many inputs and messages were asked in the round."""
        self.is_over = self.is_closing = False
        self.process: asyncio.subprocess.Process
        self.asks: asyncio.StreamWriter
        self.answers: asyncio.StreamReader
        self.says: asyncio.StreamReader
        self.reader: asyncio.Task[None]
        self.since = 0.0
        """When the program last wrote something, or was first asked for what it owes."""
        self.is_late = False

    @property
    def taken(self) -> int:
        """Returns how many ticks were requested."""
        return self.rounds.taken

    async def open(self) -> None:
        """Starts the program, and gives it the scenario; one that it refuses is raised as its death."""
        self.process = await live_in_loop(self.program)
        assert self.process.stdin and self.process.stdout and self.process.stderr
        self.asks, self.answers, self.says = self.process.stdin, self.process.stdout, self.process.stderr
        self.reader = asyncio.create_task(self.read())
        try:
            await self.send(None, scenario_line(self.scenario))
        except Over:
            raise Died(*await self.end()) from None

    async def end(self) -> tuple[str, int]:
        """Waits for the end of the program, and returns what it said and its status. A fault of the reader is raised
        once the program has ended."""
        try:
            await self.reader
        finally:
            said, status = await self.says.read(), await self.process.wait()
        return one_line(said), status

    def send(self, request: bytes | None, line: bytes) -> asyncio.Future[Answer]:
        """Gives a line to be written as soon as there is room, and returns its answer to come. Lines are written in
        the order in which they are given."""
        if self.is_over or self.is_closing:
            raise Over
        answer: asyncio.Future[Answer] = asyncio.get_running_loop().create_future()
        self.queued.append(Asked(request, line, answer))
        self.write()
        return answer

    def write(self) -> None:
        """Writes lines that are queued, as long as there is room."""
        while self.queued and len(self.waiting) < MOST and not self.is_over:
            if not self.waiting:
                self.since = asyncio.get_running_loop().time()
            asked = self.queued.popleft()
            self.waiting.append(asked)
            self.asks.write(asked.line + b"\n")

    async def ask(self, request: bytes) -> Answer:
        """Returns the answer to a request that takes no ticks."""
        self.in_round += 1
        return await self.send(request, request)

    def send_ticks(self, count: int) -> asyncio.Future[Answer]:
        """Gives a request of ticks, at most those left in the round, and returns its answer to come."""
        if self.is_over or self.is_closing:
            raise Over
        request = b"tick %d" % self.rounds.next(count)
        if self.rounds.left == self.rounds.ticks:
            self.in_round = 0
        return self.send(request, request)

    def make_room(self) -> int:
        """Ends a round that is almost full of inputs and messages, and returns by how many ticks."""
        left = self.rounds.left
        if self.in_round < MOST_OF_A_ROUND or self.is_over or self.is_closing:
            return 0
        self.send_all_ticks(left)
        return left

    def send_all_ticks(self, count: int) -> None:
        """Gives requests of ticks without waiting for their answers."""
        before = self.taken
        while self.taken - before < count and not self.is_over and not self.is_closing:
            left = count - (self.taken - before)
            self.send_ticks(left).add_done_callback(lambda answer: answer.cancelled() or answer.exception())

    async def take(self, count: int) -> None:
        """Takes ticks, over the ends of rounds where need be; a session that is over takes no more."""
        while count:
            now = min(count, self.rounds.left)
            try:
                await self.send_ticks(now)
            except Over:
                return
            count -= now

    async def read(self) -> None:
        """Gives each answer to the request that waits for it, until the program ends. A fault of a hearer of an answer
        ends the program, and is raised; then no request waits any longer."""
        answers, watch = Answers(), asyncio.create_task(self.watch())
        try:
            while octets := await self.answers.read(PIECE):
                self.since = asyncio.get_running_loop().time()
                for answer in answers.fed(octets):
                    self.answered(answer)
        except BaseException:
            self.kill()
            raise
        finally:
            watch.cancel()
            self.is_over = True
            self.give_up(self.waiting)
            self.give_up(self.queued)
        if self.is_late:
            raise Late("an answer of the program", self.seconds)

    async def watch(self) -> None:
        """Ends a program that owes an answer, or its end, and writes nothing for too long."""
        now = asyncio.get_running_loop().time
        while not self.is_late:
            left = self.since + self.seconds - now() if self.waiting or self.is_closing else self.seconds
            await asyncio.sleep(max(left, 0.01))
            self.is_late = bool(self.waiting or self.is_closing) and now() >= self.since + self.seconds
        self.kill()

    def kill(self) -> None:
        """Ends the program, if it hasn't ended."""
        if self.process.returncode is None:
            end_group(self.process.pid)

    def give_up(self, asked: "collections.deque[Asked]") -> None:
        """Fails the requests, since the session is over."""
        while asked:
            answer = asked.popleft().answer
            if not answer.done():
                answer.set_exception(Over())

    def answered(self, lines: Answer) -> None:
        """Takes an answer. Its request gets it once all have heard of it."""
        asked = self.waiting[0] if self.waiting else None
        self.heard(asked.request if asked else None, lines)
        self.is_over = self.is_over or bool(lines) and lines[-1].startswith(b"Z ")
        if asked:
            self.waiting.popleft()
            if not asked.answer.done():
                asked.answer.set_result(lines)
        self.write()

    async def finish(self) -> None:
        """Ends the input, and waits for the last answer: the session is over then."""
        if not self.is_closing:
            self.is_closing, self.since = True, asyncio.get_running_loop().time()
        self.give_up(self.queued)
        self.asks.close()
        await self.reader
        with contextlib.suppress(OSError):
            await self.asks.wait_closed()

    async def close(self) -> None:
        """Ends the session, and waits for the end of the program; one that ended before its time is raised, and so is
        a fault of the reader."""
        try:
            await self.finish()
        finally:
            said, status = await self.end()
        if status:
            raise Died(said, status)
