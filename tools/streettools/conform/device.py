"""The device under test: messages to it, and how and when it answers.

The device isn't trusted. Each message has a deadline; what arrives otherwise is counted and ignored: an answer after
its deadline, a second answer, octets that are not a message, an answer to nothing that was asked.
"""

import select
import socket
import time
from collections.abc import Callable
from dataclasses import dataclass, field
from typing import NamedTuple

from ..cabinet.messages import GET, RESPONSE, SET, Malformed, Reply, kind_of, message, reply_of
from ..shared.ber import INTEGER, Arcs, number_of, unsigned_of
from ..shared.fault import Fault
from .objects import NUMBERS, name_of

NO_ERROR, TOO_BIG, NO_SUCH_NAME, BAD_VALUE, READ_ONLY, GEN_ERR = range(6)
WORDS = {
    TOO_BIG: "tooBig", NO_SUCH_NAME: "noSuchName", BAD_VALUE: "badValue", READ_ONLY: "readOnly", GEN_ERR: "genErr",
}  # fmt: skip
MOST_NAMES = 24
"""The names in one Get."""
Bindings = list[tuple[Arcs, int | bytes | None]]


class Unanswered(Fault):
    """The device didn't answer."""


class Asked(NamedTuple):
    """A message to the device: its kind and bindings; whether it may be sent again if it isn't answered. What has a
    different effect later, as a clock that is set, may not."""

    kind: int
    bindings: Bindings
    again: bool = True


class Answer(NamedTuple):
    """The reply of the device, None if it didn't arrive in time; when the message was sent and the reply received, in
    seconds of this machine's clock that doesn't jump."""

    reply: Reply | None
    sent: float
    received: float

    def values(self) -> dict[Arcs, int]:
        """Returns the numbers in a reply without a fault."""
        if self.reply is None or self.reply.status:
            return {}
        return {name: value_of(tag, content) for name, tag, content in self.reply.bindings if tag in NUMBERS}


def value_of(tag: int, content: bytes) -> int:
    """Returns a number."""
    return number_of(content) if tag == INTEGER else unsigned_of(content)


@dataclass
class Counts:
    """What the device has answered, and what else arrived."""

    asked: int = 0
    answered: int = 0
    unanswered: int = 0
    late: int = 0
    twice: int = 0
    malformed: int = 0
    stray: int = 0
    seconds: list[float] = field(default_factory=list)
    """How long each answer took."""

    def words(self) -> list[str]:
        """Returns what was unusual, in words."""
        said = {
            "without an answer": self.unanswered, "with an answer that came too late": self.late,
            "with two answers": self.twice, "with an answer that is not a message": self.malformed,
        }  # fmt: skip
        found = [f"{count} message{'s'[: count != 1]} {words}" for words, count in said.items() if count]
        if self.stray:
            found.append(f"{self.stray} answer{'s'[: self.stray != 1]} to nothing that was asked")
        return found


class Device:
    """A device at an address."""

    def __init__(
        self, where: tuple[str, int], community: str, patience: float = 1.0, tries: int = 3
    ) -> None:
        self.where, self.community = f"{where[0]}:{where[1]}", community.encode(errors="surrogateescape")
        self.patience, self.tries = patience, tries
        self.socket = socket.socket(socket.AF_INET, socket.SOCK_DGRAM)
        self.socket.connect(where)
        self.socket.setblocking(False)
        self.readable = select.poll()
        self.readable.register(self.socket, select.POLLIN)
        self.number = int(time.time()) % 2**29 * 2
        self.counts = Counts()
        self.past: dict[int, bool] = {}
        """The numbers of messages that wait no longer, and whether they were answered."""
        self.told: Callable[[Asked, Answer], object] = lambda asked, answer: None
        """Is called with each exchange."""

    def close(self) -> None:
        """Closes the socket."""
        self.socket.close()

    def exchange(self, several: list[Asked]) -> list[Answer]:
        """Sends messages, all at once, and returns the answers in the same order. What isn't answered in time is sent
        again, octet for octet, so that an agent can recognise the copy."""
        waiting: dict[int, int] = {}
        octets: dict[int, bytes] = {}
        found: list[Answer] = []
        for at, it in enumerate(several):
            self.number += 1
            waiting[self.number] = at
            octets[self.number] = message(it.kind, self.number, it.bindings, self.community)
            found.append(Answer(None, time.monotonic(), 0.0))
        for _ in range(self.tries):
            for number in waiting:
                self.send(octets[number])
            self.counts.asked += len(waiting)
            self.collect(waiting, found)
            for number in [it for it, at in waiting.items() if not several[at].again]:
                self.keep(number, False)
                waiting.pop(number)
                self.counts.unanswered += 1
            self.counts.unanswered += len(waiting)
            if not waiting:
                break
        for number in waiting:
            self.keep(number, False)
        for it, answer in zip(several, found):
            self.told(it, answer)
        return found

    def collect(self, waiting: dict[int, int], found: list[Answer]) -> None:
        """Takes the answers to messages that wait, by their numbers, until nothing has arrived for some time."""
        end = time.monotonic() + self.patience
        while waiting and (left := end - time.monotonic()) > 0:
            for reply in self.arrived(left):
                at = waiting.pop(reply.number, -1)
                if at < 0:
                    self.strange(reply.number)
                    continue
                found[at] = Answer(reply, found[at].sent, time.monotonic())
                self.counts.answered += 1
                took = found[at].received - found[at].sent
                self.counts.seconds.append(took)
                self.counts.late += took > self.patience
                self.keep(reply.number, True)
                end = time.monotonic() + self.patience

    def keep(self, number: int, was_answered: bool) -> None:
        """Remembers a message that waits no longer, and forgets the oldest."""
        self.past[number] = was_answered
        while len(self.past) > 4096:
            self.past.pop(next(iter(self.past)))

    def send(self, octets: bytes) -> None:
        """Sends octets; if nothing listens at the port, no answer will come."""
        try:
            self.socket.send(octets)
        except (ConnectionRefusedError, BlockingIOError):
            pass

    def throw(self, several: list[bytes], seconds: float = 0.2) -> None:
        """Sends octets of any kind, and ignores what arrives for some time."""
        counts, self.counts = self.counts, Counts()
        try:
            for octets in several:
                self.send(octets)
                self.arrived(0)
            end = time.monotonic() + seconds
            while (left := end - time.monotonic()) > 0:
                self.arrived(left)
        finally:
            self.counts = counts

    def arrived(self, seconds: float) -> list[Reply]:
        """Returns the replies that arrive, at most for some time."""
        found: list[Reply] = []
        if not self.readable.poll(1000 * seconds):
            return found
        while True:
            try:
                octets = self.socket.recv(65_536)
            except ConnectionRefusedError:
                time.sleep(min(seconds, 0.05))
                return found
            except BlockingIOError:
                return found
            try:
                if kind_of(octets) != RESPONSE:
                    raise Malformed("not a Response")
                found.append(reply_of(octets))
            except (Malformed, ValueError, IndexError):
                self.counts.malformed += 1

    def strange(self, number: int) -> None:
        """Counts a reply that nothing waits for."""
        if number not in self.past:
            self.counts.stray += 1
        elif self.past[number]:
            self.counts.twice += 1
        else:
            self.counts.late += 1

    def ask(self, kind: int, bindings: Bindings) -> Answer:
        """Returns the answer to one message; raises Unanswered if none arrives."""
        (answer,) = self.exchange([Asked(kind, bindings)])
        if answer.reply is None:
            what = f"{'a Set' if kind == SET else 'a Get'} of {name_of(bindings[0][0])}" if bindings else "a message"
            raise Unanswered(f"{self.where} didn't answer {what}, sent {self.tries} times, in {self.patience:g} s each")
        return answer

    def get(self, names: list[Arcs]) -> dict[Arcs, int]:
        """Returns the numbers of those objects that the device has."""
        found: dict[Arcs, int] = {}
        waiting = list(names)
        while waiting:
            batch = waiting[:MOST_NAMES]
            answer = self.ask(GET, [(name, None) for name in batch])
            reply = answer.reply
            assert reply is not None
            if reply.status == NO_SUCH_NAME and 1 <= reply.index <= len(batch):
                waiting.remove(batch[reply.index - 1])
                continue
            found |= answer.values() if not reply.status else {}
            waiting = waiting[len(batch) :]
        return found

    def set(self, bindings: Bindings) -> Reply:
        """Sets objects, and returns the reply."""
        reply = self.ask(SET, bindings).reply
        assert reply is not None
        return reply


def refusal(reply: Reply) -> str:
    """Returns the error status of a reply in words."""
    return WORDS.get(reply.status, f"status {reply.status}")
