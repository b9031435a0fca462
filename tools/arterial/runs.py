"""Whole runs: a scenario's trace, and whether a text is a trace."""

import os
import re
from typing import TYPE_CHECKING, NamedTuple

from streettools.shared import program as starting
from streettools.shared.fault import Fault
from streettools.shared.status import Status

from .errors import Error, Late, ProgramDied, Refused, own
from .given import text_of
from .programs import path_of
from .traces import Trace, octets_of

if TYPE_CHECKING:
    from .given import Given

NO_TRACE = 5
"""The program's exit status if a text isn't a trace."""
MOST_WORKERS = 8
EXPLAINED = 1 << 20
"""The octets of the longest scenario whose refusal is explained in words; of longer ones the program's line remains."""


def run(
    scenario: "Given", workers: int = 0, *, program: str | os.PathLike[str] | None = None, seconds: float | None = None
) -> Trace:
    """Returns the trace of a scenario.

    - `scenario`: a dict, an `arterial.Scenario` or `arterial.Plan`, JSON text, or the path of a scenario (.json) or of
      a timing sheet (.toml, .xlsx);
    - `workers`: 0 processes the items of a round in their order; 1 to 8 is a number of threads that process the items
      in any order. The trace shows that order;
    - `program`: the program to run (default: the program that `arterial.program()` finds);
    - `seconds`: the time limit in seconds (default: no limit).

    Raises `Refused` with the reason if the scenario isn't accepted, `Late` if the program takes too long, and
    `ProgramDied` if it ends early. In each case no process remains.

    >>> import arterial
    >>> trace = arterial.run({"version": 1, "rounds": 60, "ticks": 10, "cabinets": [{"base": "max8"}]})
    >>> trace.seconds, len(trace.greens())
    (60.0, 4)
    >>> arterial.run({"version": 1, "rounds": 60, "ticks": 10, "cabinets": []})
    Traceback (most recent call last):
    arterial.errors.Refused: scenario: limit cabinets; line 1, column 48: cabinets: expected 1 to 64 items, found 0
    """
    if type(workers) is not int or not 0 <= workers <= MOST_WORKERS:
        raise Refused("", (f"workers: expected a whole number from 0 to {MOST_WORKERS}, found {workers!r}",))
    text, path = text_of(scenario), path_of(program)
    words = ("--workers", str(workers)) if workers else ()
    with own():
        came = starting.ran(path, "run", *words, given=text, seconds=seconds)
    if came.status == Status.REFUSED:
        raise refused(text, came.said)
    if came.status:
        raise died(came)
    return Trace(came.out)


def died(came: starting.Ran) -> ProgramDied:
    """Returns why the program ended before its time."""
    return ProgramDied(str(starting.Died(came.said, came.status)), came.status)


def refused(text: bytes, line: str) -> Refused:
    """Returns the refusal of a scenario, with the words of what was expected and found."""
    if len(text) > EXPLAINED:
        return Refused(line)
    from streettools.plan import explain

    try:
        return Refused(line, tuple(explain.of_refusal(text, line)))
    except (Fault, MemoryError, RecursionError, UnicodeError):
        return Refused(line)


class Verdict(NamedTuple):
    """Whether a text is a trace: true in an `if` and an `assert` exactly if it is one.

    - `is_trace`: whether the program accepts it;
    - `line`: the number of the first line that isn't accepted, from 1; None if it is a trace;
    - `rule`: the number of the rule that this line breaks; None if it is a trace;
    - `words`: the rule in words.
    """

    is_trace: bool
    line: int | None = None
    rule: int | None = None
    words: str = ""

    def __bool__(self) -> bool:
        return self.is_trace


def check(
    trace: "Trace | str | bytes | os.PathLike[str]",
    *,
    program: str | os.PathLike[str] | None = None,
    seconds: float | None = None,
) -> Verdict:
    """Returns whether a text is a trace, which means that a run of its scenario could have written it (docs/TRACE.md).

    `trace` is a `Trace`, the text of one, or the path of a file. A text begins with `S `; any other `str` is a path.

    >>> import arterial
    >>> trace = arterial.run({"version": 1, "rounds": 1, "ticks": 60, "cabinets": [{"base": "max8"}]})
    >>> bool(arterial.check(trace))
    True
    >>> arterial.check(trace.text.replace(b"F 1 60 RG", b"F 1 60 GG"))
    Verdict(is_trace=False, line=5, rule=6, words='a different F line is expected here')
    """
    text = text_of_trace(trace)
    path = path_of(program)
    with own():
        came = starting.ran(path, "check", given=text, seconds=seconds)
    if came.status == 0:
        return Verdict(True)
    found = re.fullmatch(r"trace: line (\d+) breaks rule (\d+)", came.said)
    if came.status != NO_TRACE or not found:
        raise died(came)
    from streettools.plan.explain import TRACE_RULES

    line, rule = map(int, found.groups())
    return Verdict(False, line, rule, TRACE_RULES.get(rule, f"rule {rule}"))


def text_of_trace(given: "Trace | str | bytes | os.PathLike[str]") -> bytes:
    """Returns the octets of a trace."""
    if isinstance(given, Trace):
        return given.text
    if isinstance(given, bytes):
        return given
    if isinstance(given, str) and given.startswith("S "):
        return given.encode("utf-8", "surrogateescape")
    if isinstance(given, (str, os.PathLike)):
        return octets_of(given)
    raise Refused("", (f"expected a Trace, text or the path of a file, found {type(given).__name__}",))


__all__ = ["Error", "Late", "Verdict", "check", "run"]
