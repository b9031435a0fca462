"""A session of the program (docs/LIVE.md): a request in a line, then its answer, the lines up to one with a dot.

`Answers` and `Rounds` are what every caller of a session needs. `Session` is for one caller that asks and waits;
`streettools.street.session` is for callers that ask at the same time.
"""

import json
import os
import pathlib
import select
import time
from collections.abc import Iterator
from typing import Any, Self

from .fault import Fault
from .program import Late, live
from .status import Status

SECONDS = 120.0
"""How long the program may write nothing while it owes an answer."""
LONGEST = 1 << 24
"""The bytes of the longest answer that is read. One to 600 ticks of 64 cabinets has at most 3 million."""
PIECE = 1 << 16
DOT = b"."
LISTS = ("inputs", "loads", "priority", "frames", "faults")
"""The lists of a scenario whose items have a round."""

Answer = list[bytes]
"""The lines of an answer, without the dot."""


def scenario_line(scenario: dict[str, Any]) -> bytes:
    """Returns the first line of a session."""
    return json.dumps(scenario, separators=(",", ":")).encode()


def refusal(answer: Answer) -> bytes | None:
    """Returns the line that refuses a request, None if the answer is another."""
    return answer[0] if answer and answer[0].startswith(b"? ") else None


class Answers:
    """Splits what the program writes, in pieces of any size, into answers."""

    def __init__(self) -> None:
        self.lines: Answer = []
        self.rest = b""
        self.size = 0

    def fed(self, octets: bytes) -> list[Answer]:
        """Takes bytes, and returns the answers that are complete with them."""
        *lines, self.rest = (self.rest + octets).split(b"\n")
        self.size += len(octets)
        found = []
        for line in lines:
            if line == DOT:
                found.append(self.lines)
                self.lines = []
            else:
                self.lines.append(line)
        if found:
            self.size = len(self.rest) + sum(map(len, self.lines))
        if self.size > LONGEST:
            raise Fault(f"the program wrote an answer of more than {LONGEST} octets", Status.FILE)
        return found


class Rounds:
    """The ticks of a session, which are requested round by round."""

    def __init__(self, ticks: int) -> None:
        self.ticks = self.left = ticks
        """The ticks of a round, and those left in this one."""
        self.taken = 0

    def next(self, count: int) -> int:
        """Returns how many ticks may be requested now: at most `count`, and those left in the round."""
        now = min(count, self.left)
        self.left, self.taken = self.left - now or self.ticks, self.taken + now
        return now

    def requests(self, count: int) -> Iterator[bytes]:
        """Yields the requests of `count` ticks."""
        while count:
            now = self.next(count)
            count -= now
            yield b"tick %d" % now


class Session:
    """A session for one caller that asks and waits. Leaving the context ends the program. `opened` is the answer to the
    scenario."""

    def __init__(self, program: pathlib.Path | str, scenario: dict[str, Any], seconds: float = SECONDS) -> None:
        self.rounds, self.seconds = Rounds(scenario["ticks"]), seconds
        self.answers = Answers()
        self.running = live(program)
        self.input, self.output = self.running.input(), self.running.output()
        os.set_blocking(self.input, False)
        self.readable, self.either = select.poll(), select.poll()
        self.readable.register(self.output, select.POLLIN)
        self.either.register(self.output, select.POLLIN)
        self.either.register(self.input, select.POLLOUT)
        try:
            (self.opened,) = self.exchanged(scenario_line(scenario) + b"\n", 1)
        except BaseException:
            self.end()
            raise

    def __enter__(self) -> Self:
        return self

    def __exit__(self, *_: object) -> None:
        self.end()

    def exchanged(self, text: bytes, count: int) -> list[Answer]:
        """Writes `count` requests, each with its newline, and returns their answers. It reads while it writes, so that
        neither side waits for the other."""
        found: list[Answer] = []
        while text:
            text = text[self.written(text) :]
            if text and self.has_output():
                found += self.answers.fed(self.read())
        while len(found) < count:
            found += self.answers.fed(self.read())
        if len(found) > count:
            raise Fault(f"the program wrote {len(found)} answers to {count} requests", Status.FILE)
        return found

    def written(self, text: bytes) -> int:
        """Writes what there is room for, and returns how many bytes that were."""
        try:
            return os.write(self.input, text)
        except BlockingIOError:
            return 0
        except BrokenPipeError:
            raise self.running.died() from None

    def has_output(self) -> bool:
        """Waits for room in the input or for output; tells whether there is output."""
        there = self.either.poll(1000 * self.seconds)
        if not there:
            raise Late("an answer of the program", self.seconds)
        return any(place == self.output for place, _ in there)

    def read(self) -> bytes:
        """Returns what the program writes next."""
        if not self.readable.poll(1000 * self.seconds):
            raise Late("an answer of the program", self.seconds)
        octets = os.read(self.output, PIECE)
        if not octets:
            raise self.running.died()
        return octets

    def ask(self, requests: list[bytes]) -> list[Answer]:
        """Returns the answers to requests; one that is refused is a fault."""
        found = self.exchanged(b"\n".join((*requests, b"")), len(requests))
        for request, answer in zip(requests, found):
            if refused := refusal(answer):
                raise Fault(f"the session refuses {request.decode(errors='replace')}: {refused.decode()}")
        return found

    def finish(self) -> list[Answer]:
        """Ends the input, waits for the end of the program, and returns the answers that came until then."""
        self.running.end_input()
        found, octets, until = [], b"-", time.monotonic() + self.seconds
        while octets:
            if not self.readable.poll(max(0, 1000 * (until - time.monotonic()))):
                raise Late("the end of the session", self.seconds)
            octets = os.read(self.output, PIECE)
            found += self.answers.fed(octets)
        self.running.closed().done()
        return found

    def end(self) -> None:
        """Ends the program."""
        self.running.end()
