"""Lets `judge` judge the parts of a log, and reads its report."""

import os
import subprocess
import sys
import tempfile
from collections.abc import Iterator
from dataclasses import dataclass, field
from typing import NamedTuple

from ..shared import program as programs
from ..shared.fault import Fault
from ..shared.saying import say

CLAUSES = ("apart", "order", "clearance", "short green", "pedestrian", "on green")
"""The clauses, by their numbers from 1."""
DONE, UNSAFE = 0, 8
WORD = b"\n  arterial judge "
MOST_BREACHES = 1_000_000
"""How many breaches of a log are read at the most."""


class Breach(NamedTuple):
    """A breach: the part of the log, the cabinet, the tick, the clause from 1, the phase, and the other phase or 0."""

    part: int
    cabinet: int
    tick: int
    clause: int
    phase: int
    other: int


class Overrun(NamedTuple):
    """An interval that has lasted longer than its time where a part ends: its letter, and the tick of its beginning."""

    part: int
    cabinet: int
    phase: int
    letter: str
    since: int


@dataclass
class Report:
    """What `judge` reports of the parts of a log."""

    breaches: list[Breach] = field(default_factory=list)
    overruns: list[Overrun] = field(default_factory=list)


def has_judge(path: str) -> bool:
    """Returns whether a program has the command."""
    asked = subprocess.run([path, "--help"], stdin=subprocess.DEVNULL, capture_output=True)
    return WORD in asked.stdout


def program_of(name: str | None) -> str:
    """Returns the program that judges: the one that is asked for, or the usual one; else the model, if that program
    hasn't the command."""
    path = str(programs.answering(name, lambda line: say("log", line)))
    if path == programs.MODEL or has_judge(path):
        return path
    if name is not None or not os.path.isfile(programs.MODEL):
        raise Fault(f"{path} has no command judge")
    say("log", "the program here has no command judge; the model in plain Python answers")
    return programs.MODEL


def judged(program: str, parts: list[str], tolerance: int) -> Report:
    """Returns what the program reports of the parts of a log, each of which begins in the middle."""
    report = Report()
    words = [program, "judge", "--joined", "--tolerance", str(tolerance)]
    for number, part in enumerate(parts):
        with open(part, "rb") as given, tempfile.TemporaryFile() as said:
            with subprocess.Popen(words, stdin=given, stdout=subprocess.PIPE, stderr=said) as running:
                assert running.stdout is not None
                try:
                    for line in running.stdout:
                        take(report, number, line)
                except BaseException:
                    running.kill()
                    raise
            if running.returncode not in (DONE, UNSAFE):
                said.seek(0)
                raise Fault(f"{part}: {programs.one_line(said.read(4096)) or 'judge ended early'}")
    return report


def take(report: Report, part: int, line: bytes) -> None:
    """Takes a line of a report."""
    kind, *words = line.decode("ascii").split()
    if kind == "B":
        if len(report.breaches) == MOST_BREACHES:
            raise Fault(f"the log has more than {MOST_BREACHES:,} breaches: is the plan that of these cabinets?")
        cabinet, tick, clause, phase, other = map(int, words)
        report.breaches.append(Breach(part, cabinet, tick, clause, phase, other))
    elif kind == "W":
        report.overruns.append(Overrun(part, int(words[0]), int(words[1]), words[2], int(words[3])))


def frames(part: str) -> Iterator[tuple[int, int, str, str, str]]:
    """Yields cabinet, tick, colours, signals and mode of each F line of a part."""
    with open(part, encoding="ascii") as lines:
        for line in lines:
            if line.startswith("F "):
                _, cabinet, tick, colours, signals, mode, *_ = line.split(" ")
                yield int(cabinet), int(tick), sys.intern(colours), sys.intern(signals), sys.intern(mode)
