"""What follows the program's line if it refuses a scenario or a field file: what was expected, and what was found.

`./arterial plan explain` says the same. It is not proved. Its memory and its time are bounded; if they don't suffice,
or if the line can't be explained, nothing is added.
"""

import contextlib
import os
import resource
import signal
import sys
from collections.abc import Iterator

from streettools.shared.fault import Fault
from streettools.shared.saying import say
from streettools.shared.status import Status
from streettools.shared.values import MOST_BYTES

KNOWN = {"run": "scenario: ", "live": "scenario: ", "respond": "scenario: ", "band": "scenario: not JSON"}
"""The commands whose refusals are explained, and how the lines begin."""

MEMORY, SECONDS, LINES = 1 << 30, 20, 4
"""How many bytes and seconds an explanation may take, and how many lines it has at most."""


class TooLong(Exception):
    """The explanation takes too long."""


def stop(number: int, frame: object) -> None:
    """Ends an explanation that takes too long."""
    raise TooLong


@contextlib.contextmanager
def bounded() -> Iterator[None]:
    """Bounds memory and time while the block runs."""
    old = resource.getrlimit(resource.RLIMIT_AS)
    signal.signal(signal.SIGALRM, stop)
    signal.setitimer(signal.ITIMER_REAL, SECONDS)
    resource.setrlimit(resource.RLIMIT_AS, (MEMORY, old[1]))
    try:
        yield
    finally:
        signal.setitimer(signal.ITIMER_REAL, 0)
        resource.setrlimit(resource.RLIMIT_AS, old)


def explained(command: str, content: bytes, said: str) -> list[str]:
    """Returns the lines that follow the program's line; none if it isn't a refusal that can be explained."""
    line = said.strip()
    if not line.startswith(KNOWN.get(command, "\n")):
        return []
    from streettools.plan import explain

    try:
        with bounded():
            text = content.partition(b"\n")[0] if command == "live" else content
            return explain.of_refusal(text, line)[:LINES]
    except (Fault, TooLong, MemoryError, RecursionError, UnicodeError):
        return []


def show(command: str, content: bytes, said: str) -> None:
    """Writes the lines that follow the program's line to standard error."""
    for line in explained(command, content, said):
        say("arterial", line)


def main(given: list[str]) -> int:
    """Writes these lines; the arguments are the command and the program's line, and the input is a file on standard
    input."""
    command, said = given
    size = os.fstat(sys.stdin.fileno()).st_size
    if size > MOST_BYTES:
        if said.strip() == "scenario: limit ." and command in KNOWN:
            say("arterial", f"expected at most {MOST_BYTES} bytes, found {size}")
        return Status.DONE
    sys.stdin.buffer.seek(0)
    show(command, sys.stdin.buffer.read(MOST_BYTES), said)
    return Status.DONE
