"""What each command of the program's words reads and writes, and its exit status.

`live` and `judge` answer each line before they read on; every other command reads all of its input first.
docs/COMMANDS.md; docs/SCENARIO.md, "What is refused, and how"; docs/TRACE.md, "Checking a trace".
"""

import os
import sys
from collections.abc import Callable, Iterator
from dataclasses import dataclass
from enum import IntEnum
from io import BytesIO

from model import words_given as given
from model.band import bands
from model.check import Fault, check
from model.field_file import respond
from model.generator import generated
from model.judge import Terms
from model.judge_log import Breaches, LineRefused, judge
from model.live import live
from model.overlaps import OverlapFault, overlap_lines
from model.run import trace_lines
from model.scenario_read import read_scenario
from model.shapes import Refused
from model.survey import survey_lines


class Status(IntEnum):
    """The exit statuses."""

    DONE = 0
    USAGE = 1
    SCENARIO = 2
    READ_FAULT = 3
    WRITE_FAULT = 4
    NOT_A_TRACE = 5
    OVERLAP = 7
    UNSAFE = 8


class ReadFault(Exception):
    """A read of standard input failed."""


PIECE = 65_536
USAGE = "usage: arterial run [--workers N] | check | generate | survey"


def lines_of(command: given.Command, data: bytes) -> Iterator[bytes]:
    """Yields the lines that a command writes."""
    if isinstance(command, given.Run):
        yield from trace_lines(read_scenario(data))
    elif isinstance(command, given.Check):
        check(data)
    elif isinstance(command, given.Generate):
        yield generated(command).compact
    elif isinstance(command, given.Survey):
        yield from survey_lines(generated(command))
    elif isinstance(command, given.Overlaps):
        yield from overlap_lines(data, command)
    elif isinstance(command, given.Respond):
        yield respond(data)
    else:
        yield from bands(data)


@dataclass(frozen=True)
class Answer:
    """What the words are answered: the exit status, what is written, and the line on standard error."""

    status: Status
    output: bytes = b""
    said: bytes = b""


def refused(status: Status, line: str) -> Answer:
    """Returns the answer that says a line on standard error and writes nothing."""
    return Answer(status, said=line.encode(errors="surrogateescape") + b"\n")


def pieces_of(command: given.Live | given.Judge, read: Callable[[], bytes]) -> Iterator[bytes]:
    """Yields what a command that answers line by line writes."""
    if isinstance(command, given.Live):
        return live(read)
    return judge(read, Terms(command.tolerance, command.joined))


def streamed(command: given.Live | given.Judge, read: Callable[[], bytes], write: Callable[[bytes], object]) -> Answer:
    """Answers each line before it reads on, and returns how that ended."""
    try:
        for output in pieces_of(command, read):
            write(output)
    except Refused as fault:
        return refused(Status.SCENARIO, f"scenario: {fault}")
    except LineRefused as fault:
        return refused(Status.NOT_A_TRACE, f"log: {fault}")
    except Breaches:
        return refused(Status.UNSAFE, "log: not safe")
    return Answer(Status.DONE)


def reads(words: list[str]) -> bool:
    """Tells whether the words are a command that reads standard input."""
    command = given.command_of(words)
    return command is not None and not isinstance(command, (given.Generate, given.Survey))


def answer(words: list[str], data: bytes) -> Answer:
    """Returns what the words are answered where standard input has these bytes."""
    command = given.command_of(words)
    if command is None:
        return refused(Status.USAGE, USAGE)
    if isinstance(command, (given.Live, given.Judge)):
        output: list[bytes] = []
        told = streamed(command, BytesIO(data).read, output.append)
        return Answer(told.status, b"".join(output), told.said)
    try:
        return Answer(Status.DONE, b"".join(line + b"\n" for line in lines_of(command, data)))
    except Refused as fault:
        return refused(Status.SCENARIO, f"scenario: {fault}")
    except Fault as fault:
        return refused(Status.NOT_A_TRACE, f"trace: {fault}")
    except OverlapFault as fault:
        return refused(Status.OVERLAP, f"overlap: {fault}")


def read_all(words: list[str]) -> bytes | None:
    """Returns standard input where the words read it; None where a read failed."""
    try:
        return sys.stdin.buffer.read() if reads(words) else b""
    except OSError:
        return None


def read_piece() -> bytes:
    """Returns what standard input has, as soon as it has something; nothing at its end."""
    try:
        return os.read(0, PIECE)
    except OSError as fault:
        raise ReadFault from fault


def write(output: bytes) -> None:
    """Writes to standard output, and keeps nothing back; a call may move less than all."""
    left = memoryview(output)
    while left:
        left = left[os.write(1, left) :]


def hold_session(command: given.Live | given.Judge) -> Answer:
    """Answers each line of standard input before it reads on; returns how that ended."""
    try:
        return streamed(command, read_piece, write)
    except ReadFault:
        return refused(Status.READ_FAULT, "read fault")


def answer_at_once(words: list[str]) -> Answer:
    """Answers all of standard input at once; returns how that ended."""
    data = read_all(words)
    told = refused(Status.READ_FAULT, "read fault") if data is None else answer(words, data)
    write(told.output)
    return told


def main(words: list[str]) -> int:
    """Does what the words say; returns the exit status."""
    command = given.command_of(words)
    try:
        told = hold_session(command) if isinstance(command, (given.Live, given.Judge)) else answer_at_once(words)
    except OSError:
        told = refused(Status.WRITE_FAULT, "write fault")
    sys.stderr.buffer.write(told.said)
    return told.status
