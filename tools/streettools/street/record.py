"""Records of a street: the trace of each session, and its requests, with which the street can be replayed.

The trace is at the named path when the session is over, the requests are next to it while it runs. Reads are left out
of both, since they change nothing. Only their owner can read them. Memory holds the last lines of a session; the others
are in a file without a name, in the folder of the record.
"""

import errno
import os
import pathlib
import re
from typing import Any

from ..shared import files
from ..shared.fault import Fault
from ..shared.program import Died
from ..shared.session import Answer, scenario_line
from ..shared.session_record import Room, SessionRecord
from .street import Hearer

REQUESTS = ".dialogue"
"""How the name of a file of requests ends."""
TICKS = re.compile(rb"tick [1-9]\d{0,8}")


def requests_beside(trace: pathlib.Path) -> pathlib.Path:
    """Returns the file that has the requests of a trace."""
    return trace.with_suffix(REQUESTS)


def part_of(trace: pathlib.Path, number: int) -> pathlib.Path:
    """Returns the trace of a session of a record: the first has the record's name, the next a number after it."""
    return trace if number == 1 else trace.with_stem(f"{trace.stem}.{number}")


def last_part(trace: pathlib.Path) -> int:
    """Returns the number of the last session of a record, 1 if it has only one."""
    number = 1
    while requests_beside(part_of(trace, number + 1)).is_file():
        number += 1
    return number


def last_of(path: pathlib.Path) -> pathlib.Path:
    """Returns the trace of the last session of a record, which is named by its trace or by its requests."""
    trace = path.with_suffix(".trace") if path.suffix == REQUESTS else path
    number = last_part(trace)
    return path if number == 1 else part_of(trace, number)


def read_requests(path: pathlib.Path) -> tuple[bytes, list[bytes]]:
    """Returns the text of the scenario and the requests of a record, which is named by its trace or by its requests.
    The program tests the scenario, and each request but those of ticks."""
    name = path if path.suffix == REQUESTS else requests_beside(path)
    first, *requests = name.read_bytes().split(b"\n")
    found = [request for request in requests[:-1] if request]
    for number, request in enumerate(found, 2):
        if request.startswith(b"tick") and not TICKS.fullmatch(request):
            raise Fault(f"{name}: line {number} is not a request")
    return first, found


def put_aside(path: pathlib.Path) -> None:
    """Gives a file that is there the same name with ~ at its end."""
    if os.path.lexists(path):
        path.replace(path.with_name(f"{path.name}~"))


class Requests:
    """The file of the requests of a session. It holds whole lines at every time, those up to the last ticks."""

    def __init__(self, path: pathlib.Path) -> None:
        """Makes the file; an existing one is renamed with ~ at the end of its name. A link is not followed."""
        self.path = path
        if path.is_dir():
            raise IsADirectoryError(errno.EISDIR, "Is a directory", str(path))
        put_aside(path)
        self.file = os.open(path, os.O_WRONLY | os.O_CREAT | os.O_EXCL | os.O_NOFOLLOW | os.O_CLOEXEC, 0o600)
        self.end = 0
        self.waiting = b""

    def add(self, line: bytes) -> None:
        """Adds a line. It is written with the next ticks."""
        self.waiting += line + b"\n"
        if line.startswith(b"tick "):
            self.write()

    def write(self) -> None:
        """Writes the lines that wait; if they can't be written whole, none of them stays."""
        text, self.waiting = self.waiting, b""
        left = text
        try:
            while left:
                left = left[os.write(self.file, left) :]
        except OSError as fault:
            os.ftruncate(self.file, self.end)
            raise OSError(fault.errno, fault.strerror, str(self.path)) from None
        self.end += len(text)

    def close(self) -> None:
        """Writes what waits, and closes the file."""
        try:
            self.write()
        finally:
            os.close(self.file)


class Recorder(Hearer):
    """Records the sessions of a street: the first at the path that is named, the next with a number after its name."""

    called = "the record"

    def __init__(self, path: pathlib.Path, first: int = 1) -> None:
        """Records at a path, from the session of this number on; those before it stay."""
        if path.suffix == REQUESTS:
            raise Fault(f"{path}: a record has the name of its trace; its requests get the ending {REQUESTS}")
        if path.is_dir():
            raise IsADirectoryError(errno.EISDIR, "Is a directory", str(path))
        self.path = path
        self.first, self.part = first, first - 1
        self.record: SessionRecord
        self.requests: Requests
        self.room: Room

    def trace_path(self) -> pathlib.Path:
        """Returns the path of the trace of this session."""
        return part_of(self.path, self.part)

    def began(self, scenario: dict[str, Any]) -> None:
        self.part += 1
        if self.part == self.first:
            self.put_later_aside()
        folder = str(self.path.absolute().parent)
        self.record, self.room = SessionRecord(scenario, keeps_reads=False, folder=folder), Room(scenario)
        self.requests = Requests(requests_beside(self.trace_path()))
        self.requests.add(scenario_line(scenario))
        self.requests.write()

    def put_later_aside(self) -> None:
        """Puts the later sessions of an older record aside: they don't follow those that are recorded now."""
        for number in range(self.part + 1, last_part(self.path) + 1):
            for path in (part_of(self.path, number), requests_beside(part_of(self.path, number))):
                put_aside(path)

    def heard(self, request: bytes | None, answer: Answer) -> None:
        with files.blamed(self.trace_path()):
            is_kept = self.record.answered(request, answer)
        if is_kept and request is not None:
            self.requests.add(request)

    def is_full(self) -> bool:
        return self.room.is_used(self.record)

    def ended(self, died: Died | None) -> None:
        try:
            self.requests.close()
        finally:
            self.write()

    def write(self) -> None:
        """Writes the trace of all rounds that are over."""
        if not self.record.is_over:
            self.record.cut()
        if self.record.number < 1:
            return
        with files.whole(self.trace_path(), is_private=True) as name, open(name, "wb") as out:
            out.writelines(self.record.trace())
