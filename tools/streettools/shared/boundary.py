"""The boundary of a tool: any exception of a command becomes lines on standard error and an exit status."""

import os
import sys
from collections.abc import Callable

from .fault import Fault
from .program import NoProgram
from .saying import say
from .status import Status

TRACEBACK = "--traceback"
"""The word that any command takes: Python's own account of a fault also goes to standard error."""

HINT = "./arterial prove makes one, --program names another"
"""The hint that is added if a program isn't found."""

OWN = __name__.partition(".")[0]
"""The name of this package: a module of it that is missing is a fault of the tool."""


def bounded(tool: str, does: Callable[[list[str]], int], words: list[str]) -> int:
    """Runs a tool's command with its words, and returns the exit status. An exception becomes one line (a `Fault` with
    several lines as many), each with the tool's name before it."""
    shows = TRACEBACK in words
    try:
        return int(does([word for word in words if word != TRACEBACK]))
    except (Exception, KeyboardInterrupt) as fault:
        if shows:
            import traceback  # takes a while

            traceback.print_exc()
        return ended(tool, fault)


def ended(tool: str, fault: BaseException) -> Status | int:
    """Prints what went wrong, and returns its exit status."""
    if isinstance(fault, KeyboardInterrupt):
        drop_output()
        return Status.INTERRUPTED
    if isinstance(fault, BrokenPipeError):
        drop_output()
        return Status.FILE
    if isinstance(fault, Fault):
        words = f"{fault}; {HINT}" if isinstance(fault, NoProgram) else str(fault)
        for line in words.splitlines():
            say(tool, line)
        return fault.status
    if isinstance(fault, ModuleNotFoundError) and fault.name and fault.name.partition(".")[0] != OWN:
        say(tool, missing(fault.name))
        return Status.FILE
    if isinstance(fault, OSError):
        drop_output()
        words = fault.strerror or str(fault) or type(fault).__name__
        say(tool, f"{fault.filename}: {words}" if fault.filename else words)
        return Status.FILE
    words = " ".join(f"{type(fault).__name__}: {fault}".split())
    say(tool, f"a fault of this tool ({words[:200]}); with {TRACEBACK} it shows where")
    return Status.SOFTWARE


def missing(module: str) -> str:
    """Returns the line for a Python package that is missing."""
    name = module.partition(".")[0]
    return f"Python's package {name} is missing: apt-get install -y python3-{name.replace('_', '-')}"


def drop_output() -> None:
    """Drops what standard output didn't take, so that Python has nothing to say of it at its end."""
    if sys.stdout is sys.__stdout__ and sys.stdout is not None:
        os.dup2(os.open(os.devnull, os.O_WRONLY), sys.stdout.fileno())
