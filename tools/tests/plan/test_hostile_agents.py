"""A walk over an agent ends whatever the agent answers: in time, with one line."""

import itertools
import socket
import threading
import time
from collections.abc import Callable, Iterator

import pytest

from streettools.cabinet.messages import field, integer, name_of, reply_of, value_of
from streettools.plan import live
from streettools.shared.given import Unreadable

from .conftest import plan

Name = tuple[int, ...]
NULL = field(5, b"")


class Hostile:
    """An agent on loopback that answers each datagram with those that a function gives for it."""

    def __init__(self, answers: Callable[[bytes], Iterator[bytes]]) -> None:
        self.answers, self.asked = answers, 0
        self.socket = socket.socket(socket.AF_INET, socket.SOCK_DGRAM)
        self.socket.bind(("127.0.0.1", 0))
        self.port = self.socket.getsockname()[1]
        self.thread = threading.Thread(target=self.serve, daemon=True)
        self.thread.start()

    def serve(self) -> None:
        """Answers until the socket is closed."""
        while True:
            try:
                octets, client = self.socket.recvfrom(65_536)
                self.asked += 1
                for datagram in self.answers(octets):
                    self.socket.sendto(datagram, client)
            except OSError:
                return

    def __enter__(self) -> "Hostile":
        return self

    def __exit__(self, *_: object) -> None:
        self.socket.close()


def response(number: int, bindings: list[tuple[Name, bytes]], status: int = 0, index: int = 0) -> bytes:
    """Returns a Response with these bindings, each a name and the octets of its value."""
    pairs = b"".join(field(0x30, name_of(name) + value) for name, value in bindings)
    body = integer(number) + integer(status) + integer(index) + field(0x30, pairs)
    return field(0x30, integer(0) + field(4, b"public") + field(0xA2, body))


def behind(names: Callable[[Name], Name]) -> Callable[[bytes], Iterator[bytes]]:
    """Returns what answers a GetNext with a name for each that was asked, and the number 1 as the value of each."""

    def answers(octets: bytes) -> Iterator[bytes]:
        asked = reply_of(octets)
        yield response(asked.number, [(names(name), value_of(1)) for name, _, __ in asked.bindings])

    return answers


def outcome(answers: Callable[[bytes], Iterator[bytes]]) -> tuple[str, Hostile, float]:
    """Walks over such an agent; returns the line with which the walk ends, the agent and the seconds that it took."""
    with Hostile(answers) as agent:
        begun = time.monotonic()
        with pytest.raises(Unreadable) as fault:
            live.walk(live.Agent("127.0.0.1", agent.port, "public"))
        return str(fault.value), agent, time.monotonic() - begun


@pytest.fixture(autouse=True)
def quick(monkeypatch):
    """A try waits for 80 milliseconds."""
    monkeypatch.setattr(live, "SECONDS", 0.08)


def test_names_that_stay_end_the_walk():
    """The agent answers each name with itself and one arc more, for ever the same one."""
    said, agent, _ = outcome(behind(lambda name: (*live.COLUMNS[0], 7)))
    assert "its names don't rise: 1.3.6.1.4.1.1206.4.2.1.1.2.1.2.7 after" in said and agent.asked <= 3


def test_names_that_fall_end_the_walk():
    counter = itertools.count(100_000, -1)
    said, agent, _ = outcome(behind(lambda name: (*name[: len(live.COLUMNS[0])], next(counter))))
    assert "its names don't rise" in said and agent.asked <= 3


def test_names_that_rise_for_ever_end_the_walk(monkeypatch):
    """Each answer has a name that is greater, in the same column."""
    monkeypatch.setattr(live, "SECONDS", 3.0)
    said, _, seconds = outcome(behind(lambda name: (*name, 0) if len(name) < 20 else (*name[:-1], name[-1] + 1)))
    assert said.endswith("it has more than 20000 objects of plans") and seconds < 30


def test_a_walk_that_takes_too_long_ends(monkeypatch):
    """Rows without an end in each column."""
    monkeypatch.setattr(live, "MOST_SECONDS", 0.3)
    said, _, seconds = outcome(behind(lambda name: (*name, 0) if name in live.COLUMNS else (*name[:-1], name[-1] + 1)))
    assert "the walk takes more than" in said and seconds < 5


def test_answers_to_other_questions_are_no_answers():
    """A flood of Responses with other numbers doesn't make the time longer."""

    def answers(octets: bytes) -> Iterator[bytes]:
        end = time.monotonic() + 1
        number = reply_of(octets).number
        while time.monotonic() < end:
            number += 1
            yield response(number, [])

    said, _, seconds = outcome(answers)
    assert "no answer in 3 attempts (" in said and "datagrams were not answers)" in said and seconds < 5


MALFORMED = [
    b"", b"\0", b"0", b"\x30\x00", b"\x30\x80", b"\x30\x85\xff\xff\xff\xff\xff", b"\xff" * 100, bytes(500),
    response(1, [])[:-1], response(1, [])[:10], field(0x30, b""), field(0x30, integer(0) * 3),
    field(0x30, integer(0) + field(4, b"public") + field(0xA2, b"")),
    field(0x30, integer(0) + field(4, b"public") + field(0xA2, integer(1) * 3 + field(0x30, field(0x30, b"")))),
    field(0x30, integer(0) + field(4, b"public") + field(0xA2, integer(1) * 3 + field(0x30, field(0x30, b"\6\0\5\0")))),
]  # fmt: skip


@pytest.mark.parametrize("datagram", MALFORMED, ids=range(len(MALFORMED)))
def test_malformed_answers_are_no_answers(datagram):
    said, _, seconds = outcome(lambda octets: iter([datagram]))
    assert "no answer in 3 attempts (3 datagrams were not answers)" in said and seconds < 5


def test_a_name_without_octets_is_no_answer():
    """The number of the question is right, and the bindings have names of no octets."""

    def answers(octets: bytes) -> Iterator[bytes]:
        asked = reply_of(octets)
        pairs = field(0x30, field(0x30, b"\6\0\5\0") * len(asked.bindings))
        body = integer(asked.number) + integer(0) * 2 + pairs
        yield field(0x30, integer(0) + field(4, b"public") + field(0xA2, body))

    assert "no answer in 3 attempts (3 datagrams" in outcome(answers)[0]


def test_a_question_that_comes_back_is_no_answer():
    """An agent that sends back each datagram as it came."""
    assert "no answer in 3 attempts (3 datagrams" in outcome(lambda octets: iter([octets]))[0]


def test_answers_of_another_port_do_not_come_in():
    """The right Response, sent from another socket."""
    other = socket.socket(socket.AF_INET, socket.SOCK_DGRAM)

    def serve(own: socket.socket) -> None:
        while True:
            try:
                octets, client = own.recvfrom(65_536)
            except OSError:
                return
            asked = reply_of(octets)
            other.sendto(response(asked.number, [((1, 3, 7), NULL) for _ in asked.bindings]), client)

    own = socket.socket(socket.AF_INET, socket.SOCK_DGRAM)
    own.bind(("127.0.0.1", 0))
    threading.Thread(target=serve, args=[own], daemon=True).start()
    with pytest.raises(Unreadable, match=r"no answer in 3 attempts; check the port"):
        live.walk(live.Agent("127.0.0.1", own.getsockname()[1], "public"))
    own.close()
    other.close()


@pytest.mark.parametrize("status", [1, 3, 5, 99, -1])
def test_an_error_status_ends_the_walk(status):
    said, agent, _ = outcome(lambda octets: iter([response(reply_of(octets).number, [], status, 0)]))
    assert f"it answers GetNext with status {status}, index 0" in said and agent.asked <= 6


def test_too_few_bindings_end_the_walk():
    said, *_ = outcome(lambda octets: iter([response(reply_of(octets).number, [])]))
    assert "it answers GetNext with status 0" in said


def test_the_command_says_one_line():
    with Hostile(behind(lambda name: (*live.COLUMNS[0], 7))) as agent:
        ran = plan("from", "live", f"127.0.0.1:{agent.port}")
    assert ran.returncode == 2 and ran.stdout == b"" and ran.stderr.count(b"\n") == 1
    assert ran.stderr.startswith(b"plan: 127.0.0.1:") and b"its names don't rise" in ran.stderr
