"""What is printed after the program's answer if `check` refuses a text: the line that was read, and the line that was
expected.

It is not proved. If the text, up to its fault, is what `run` writes for its scenario, the expected line comes from such
a run of the program. Otherwise its journals have a different order, and the expected line comes from the model
(model/README.md), which takes the journals of the text.
"""

import os
import re
import sys
import tempfile
import time

from streettools.shared.independent import has_model
from streettools.shared.program import Running, ran
from streettools.shared.saying import say
from streettools.shared.status import Status

FAULT = re.compile(r"trace: line (\d+) breaks rule (\d+)")
TOO_LONG = 1
"""The rule that a text with too many bytes breaks: no line of it was looked at."""

SECONDS = 20
"""How long the model may take."""

WIDEST = 160
"""How much of a line is shown."""

ENDED = "read      nothing: the text ends"


class Untold(Exception):
    """The expected line can't be found; the words say why."""


def by_program(program: str, scenario: bytes, before: bytes) -> bytes | None:
    """Returns the line that a run of the program writes after a beginning of a trace, with its newline; the empty line
    if nothing follows, None if the run writes another beginning."""
    with tempfile.TemporaryFile() as given:
        given.write(scenario)
        given.seek(0)
        with Running([program, "run"], given) as running, open(running.output(), "rb", closefd=False) as text:
            return text.readline() if text.read(len(before)) == before else None


def model_parts() -> tuple:
    """Returns the parts of the model that are needed."""
    if not has_model():
        raise Untold("the model, which gives it for this order of journals, isn't here")
    from model import lines, run, scenario_read

    return lines, run, scenario_read


def by_model(scenario: bytes, read: list[bytes]) -> bytes:
    """Returns the line that is expected after a scenario and the lines read, without its newline; the empty line if
    nothing follows. If a journal is expected, it is the serial one."""
    lines, run, scenario_read = model_parts()
    due = run.Run(scenario_read.content(scenario_read.read_value(scenario))).lines()
    end = time.monotonic() + SECONDS
    next(due)
    told = next(due)
    try:
        for line in read:
            told = due.send(lines.runs_of(line) if isinstance(told, run.JournalDue) else None)
            if time.monotonic() > end:
                raise Untold(f"the model, which gives it for this order of journals, takes over {SECONDS} seconds")
    except StopIteration:
        return b""
    return lines.journal_line(told.cabinet, told.serial()) if isinstance(told, run.JournalDue) else told


def line_due(program: str, before: bytes) -> bytes:
    """Returns the line that is expected after a beginning of a trace; the empty line if nothing follows."""
    first, _, others = before.partition(b"\n")
    scenario = first.removeprefix(b"S ")
    due = by_program(program, scenario, before) if program else None
    if due is not None:
        return due.rstrip(b"\n")
    return by_model(scenario, others.split(b"\n")[:-1])


def at_opening(program: str, read: bytes) -> list[str]:
    """Returns what is printed for a first line that has no scenario."""
    due = b"S and a scenario in its compact text"
    if read.startswith(b"S ") and program:
        answer = ran(program, "run", given=read[2:])
        if answer.status:
            return [shown(read, b"")[0], f"its scenario is refused: {answer.said}"]
        due = answer.out.partition(b"\n")[0]
    return shown(read, due) if read else [ENDED, shown(due, due)[1]]


def shown(read: bytes, due: bytes) -> list[str]:
    """Returns a line for what was read and one for what is expected; of long ones the part around the first
    difference."""
    length = len(os.path.commonprefix((read, due)))
    start = max(0, length - WIDEST // 2) if max(len(read), len(due)) > WIDEST else 0
    pieces = []
    for name, line in (("read    ", read), ("expected", due)):
        piece = line[start : start + WIDEST].decode("ascii", "backslashreplace")
        piece = "".join(it if it.isprintable() else f"\\x{ord(it):02x}" for it in piece)
        pieces.append(f"{name}  {'.. ' * (start > 0)}{piece}{' ..' * (len(line) > start + WIDEST)}")
    return pieces


def behind(program: str, text: bytes, number: int) -> list[str]:
    """Returns what is printed for a later line of a text."""
    lines = text.split(b"\n", number)
    before, read = b"".join(line + b"\n" for line in lines[: number - 1]), lines[number - 1]
    try:
        due = line_due(program, before)
    except Untold as why:
        return [shown(read, read)[0], f"expected  unknown: {why}"]
    pieces = shown(read, due)
    if len(before) == len(text):
        pieces[0] = ENDED
    if not due:
        pieces[1] = f"expected  nothing: the trace ends with line {number - 1}"
    elif due.startswith(b"J "):
        pieces[1] += "   (these items in any order)"
    return pieces


def told(program: str, text: bytes, said: str) -> list[str]:
    """Returns what is printed after the program's line; nothing if it names no line of the text. An empty path means
    that there isn't a program."""
    found = FAULT.fullmatch(said.strip())
    if not found or int(found[2]) == TOO_LONG:
        return []
    number = int(found[1])
    read, due = at_opening(program, text.partition(b"\n")[0]) if number == 1 else behind(program, text, number)
    is_same = read.removeprefix("read    ") == due.removeprefix("expected")
    return [read, due + "   (with a newline after it)" * is_same]


def tell(program: str, text: bytes, said: str) -> None:
    """Prints to standard error what follows the program's line."""
    for line in told(program, text, said):
        say("arterial", line)


def main(given: list[str]) -> int:
    """Prints what follows the program's line; the words are the program's path and that line, and the text is a file on
    standard input."""
    program, said = given
    sys.stdin.buffer.seek(0)
    tell(program, sys.stdin.buffer.read(), said)
    return Status.DONE
