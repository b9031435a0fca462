"""The exceptions of this package. Each has words for a reader; none carries a traceback of another library."""

import contextlib
import re
from collections.abc import Iterator
from typing import Any

from streettools.shared import boundary, program, trace_records
from streettools.shared.fault import Fault
from streettools.shared.status import Status

__all__ = [
    "Busy", "Error", "Late", "Missing", "NoCabinet", "NoProgram", "NotATrace", "Over", "ProgramDied", "Refused",
]  # fmt: skip

LINE = re.compile(
    r"scenario: (?:(?P<kind>field|limit) (?P<path>.+)"
    r"|cabinet (?P<cabinet>\d+) breaks rule (?P<rule>\d+) at row (?P<row>\d+)|(?P<json>not JSON))"
)
"""How the program refuses a scenario (docs/SCENARIO.md)."""


class Error(Fault):
    """The base class of every exception of this package: `except arterial.Error` catches all of them."""

    def __reduce__(self) -> tuple[Any, ...]:
        """Lets the exception go from process to process with all that it has."""
        return rebuilt, (type(self), self.args, self.__dict__)


def rebuilt(kind: type[Error], args: tuple[Any, ...], members: dict[str, Any]) -> Error:
    """Returns an exception that came from another process."""
    found = kind.__new__(kind, *args)
    found.__dict__.update(members)
    return found


class Refused(Error):
    """Raised if a scenario, a plan, a message or an argument isn't accepted.

    - `line` is the program's own line; it is empty if this package refused the value before it called the program;
    - `path` is the path of the value in the scenario, as `cabinets[0].clock`; None if the reason isn't a single value;
    - `cabinet`, `rule` and `row` name a broken rule of tables (docs/SCENARIO.md); None if no rule is broken;
    - `words` are sentences with the expected and the actual value.
    """

    def __init__(self, line: str, words: tuple[str, ...] = (), path: str | None = None) -> None:
        found = LINE.fullmatch(line)
        super().__init__("; ".join(it for it in (line, *words) if it))
        self.line, self.words = line, words
        self.path = path or (found["path"] if found else None)
        self.cabinet = int(found["cabinet"]) if found and found["cabinet"] else None
        self.rule = int(found["rule"]) if found and found["rule"] else None
        self.row = int(found["row"]) if found and found["row"] else None


class NoProgram(Error):
    """Raised if no program is found that can be run here."""


class ProgramDied(Error):
    """Raised if the program ended before its task was done. `program_status` is its exit status; it is negative for a
    signal."""

    def __init__(self, words: str, program_status: int) -> None:
        super().__init__(words, Status.FILE)
        self.program_status = program_status


class Late(Error):
    """Raised if the program took longer than the given time. The package has ended it."""


class Over(Error):
    """Raised if a session has ended, so it accepts no more requests."""


class Busy(Error):
    """Raised if two threads use one session at the same time. Only one thread at a time may use a session."""


class NotATrace(Error):
    """Raised if a text isn't a trace. `line` is the number of the first line, from 1, that can't be a line of a
    trace."""

    def __init__(self, words: str, line: int) -> None:
        super().__init__(words)
        self.line = line


class NoCabinet(Error):
    """Raised if a cabinet doesn't exist."""


class Missing(Error):
    """Raised if a Python package is missing. The message names the Debian package."""


def from_own(fault: BaseException) -> BaseException:
    """Returns the exception of this package that says what another says; what says nothing to a user stays as it is."""
    if isinstance(fault, Error):
        return fault
    if isinstance(fault, program.NoProgram):
        return NoProgram(str(fault), Status.NO_PROGRAM)
    if isinstance(fault, program.Died):
        return Refused(str(fault)) if fault.status == Status.REFUSED else ProgramDied(str(fault), fault.program_status)
    if isinstance(fault, program.Late):
        return Late(str(fault), Status.FILE)
    if isinstance(fault, trace_records.NotATrace):
        return NotATrace(str(fault), fault.line)
    if isinstance(fault, Fault):
        return Refused("", (str(fault),)) if fault.status == Status.REFUSED else Error(str(fault), fault.status)
    if isinstance(fault, ModuleNotFoundError) and fault.name:
        return Missing(boundary.missing(fault.name), Status.FILE)
    if isinstance(fault, OSError):
        words = fault.strerror or str(fault) or type(fault).__name__
        return Error(f"{fault.filename}: {words}" if fault.filename else words, Status.FILE)
    return fault


@contextlib.contextmanager
def own() -> Iterator[None]:
    """Lets what is raised in the block be an exception of this package."""
    try:
        yield
    except Exception as fault:
        found = from_own(fault)
        if found is fault:
            raise
        raise found from None
