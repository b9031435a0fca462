"""What follows the program's line if it refuses an overlap: what the rule asks of it, and times that fit.

It is not proved. It reads the first line of the trace, which has the tables with which the cabinet opens.
"""

import json
import re
import sys
from collections.abc import Iterator
from typing import IO, NamedTuple

from streettools.shared.saying import say
from streettools.shared.status import Status
from streettools.shared.tables import Tables
from streettools.shared.values import MOST_BYTES

LINE = re.compile(r"overlap: rule (\d+) at row (\d+)")
YELLOW, RED = 8, 9
"""The columns of a phase's yellow change and red clearance, in ticks."""
SHORTEST = 30
"""The ticks of the shortest yellow change of an overlap."""


class Asked(NamedTuple):
    """What was asked for: the cabinet, the parents, and the ticks of trail, yellow change and red clearance."""

    cabinet: int
    parents: list[int]
    trail: int
    yellow: int
    red: int


def asked_of(words: list[str]) -> Asked:
    """Returns what the arguments of `overlaps` ask for."""
    given = dict(zip(words[::2], words[1::2]))
    parents = list(bytes.fromhex(given["--parents"]))
    return Asked(int(given["--cabinet"]), parents, *(int(given[f"--{name}"]) for name in ("trail", "yellow", "red")))


def seconds(ticks: int) -> str:
    """Returns ticks in seconds."""
    return f"{ticks / 10:g} s"


def of_parent(asked: Asked, phase: int, tables: Tables) -> Iterator[str]:
    """Yields why a phase can't be a parent."""
    if asked.parents.count(phase) > 1:
        yield f"--parents names phase {phase} twice"
    else:
        yield f"phase {phase} is not enabled at the start; enabled are {', '.join(map(str, tables.enabled()))}"


def of_times(asked: Asked, phase: int, tables: Tables) -> Iterator[str]:
    """Yields why an overlap would clear too late for a parent, and times that fit all parents."""
    yellow, red = tables.phase(phase, YELLOW), tables.phase(phase, RED)
    whole = asked.trail + asked.yellow + asked.red
    words = (
        f"trail {seconds(asked.trail)} + yellow change {seconds(asked.yellow)} + red clearance {seconds(asked.red)} "
        f"are {seconds(whole)}, but phase {phase} clears in {seconds(yellow + red)} (yellow change {seconds(yellow)}, "
        f"red clearance {seconds(red)})"
    )
    if whole <= yellow + red:
        yield f"phase {phase} clears in less than {seconds(whole)} after a download in this trace"
        return
    least = min(tables.phase(it, YELLOW) + tables.phase(it, RED) for it in asked.parents)
    yield f"{words}: the overlap has to be red by then, so there is no trail beyond it"
    if least >= SHORTEST:
        change = min(asked.yellow, least)
        after = min(asked.red, least - change)
        trail = min(asked.trail, least - change - after)
        yield f"these times fit all parents: --trail {trail} --yellow {change} --red {after}"


def lines(said: str, words: list[str], trace: IO[bytes]) -> Iterator[str]:
    """Yields the lines that explain the program's line."""
    found = LINE.search(said)
    if not found:
        return
    rule, row, asked = int(found[1]), int(found[2]), asked_of(words)
    cabinets = json.loads(trace.readline(MOST_BYTES)[2:])["cabinets"]
    if rule == 1:
        yield f"the trace has no cabinet {asked.cabinet}: its cabinets are 1 to {len(cabinets)}"
        return
    if rule == 3:
        yield f"--yellow {asked.yellow} is {seconds(asked.yellow)}: the yellow change of an overlap is 3 s or more"
        return
    setup = cabinets[asked.cabinet - 1]
    tables = Tables(setup.get("base", "std8"), setup.get("cells", ()))
    if rule == 2 and not 1 <= row <= 16:
        yield f"{row} in --parents is not a phase: two digits for each phase, 01 to 10 in hexadecimal"
    elif rule in (2, 4):
        yield from (of_parent if rule == 2 else of_times)(asked, row, tables)


def show(said: str, words: list[str], trace: IO[bytes]) -> None:
    """Writes these lines to standard error; nothing if the text isn't what it was when the program read it."""
    try:
        for line in lines(said, words, trace):
            say("arterial", line)
    except (ValueError, KeyError, IndexError, TypeError):
        return


def main(given: list[str]) -> int:
    """Writes these lines: the arguments are the program's line and those of `overlaps`; the trace is a file on standard
    input."""
    sys.stdin.buffer.seek(0)
    show(given[0], given[1:], sys.stdin.buffer)
    return Status.DONE
