"""A log as lines for `judge`: reads the rows, and writes for each cabinet what it shows.

A log is written in parts. The first part has the first stretch of each cabinet, the second part the second one, and so
on: so each part is a log of its own that begins in the middle, and the judging of a cabinet begins again after a hole.
"""

import contextlib
import os
import pathlib
import shutil
import tempfile
from collections.abc import Iterator
from dataclasses import dataclass, field
from typing import Any

import numpy as np

from ..shared import event_codes as codes
from ..shared import progress
from ..shared.fault import Fault
from . import planned, rows, shown, street, times
from .findings import Findings, sentence
from .rows import Given, Spool
from .shown import Line
from .stretches import stretches

MOST_PARTS = 1000
MOST_TICK = (1 << 32) - 1
HOLE = 900
"""Seconds without any row that are a hole, if nothing else is asked for."""


@dataclass
class Asked:
    """What a log is read with: its files, the plan, how it is written, devices, and the seconds that are a hole."""

    events: list[str]
    plan: street.Plan
    given: Given = field(default_factory=Given)
    devices: list[tuple[str, str]] = field(default_factory=list)
    hole: int = HOLE


@dataclass
class Log:
    """A log that was read: its plan, what was found, the rows of each cabinet, and the midnight (a tick since 1970)
    from which its ticks count."""

    plan: street.Plan
    findings: Findings
    spool: Spool
    devices: dict[str, int]
    midnight: int
    first: int
    last: int
    hole: int

    def rows_of(self, device: str) -> Any:
        """Returns the known rows of a device, in the order of the log, with ticks since midnight of the first day."""
        found = self.spool.of(device)
        found["tick"] -= self.midnight
        return self.known(found, self.devices[device])

    def known(self, its: Any, cabinet: int) -> Any:
        """Returns the rows whose code and parameter are known, and counts the others."""
        all_codes = its["code"]
        unused = np.isin(all_codes, tuple(codes.UNUSED))
        is_code = np.isin(all_codes, tuple(codes.CODES))
        for code in np.unique(all_codes[~(is_code | unused)])[:20].tolist():
            self.findings.add("code", f"code {code}", cabinet, int(np.count_nonzero(all_codes == code)))
        fits = is_code.copy()
        for code, it in codes.CODES.items():
            of_code = all_codes == code
            wrong = of_code & ((its["parameter"] < it.least) | (its["parameter"] > it.most))
            if wrong.any():
                number = its["parameter"][np.argmax(wrong)]
                self.findings.add("parameter", f"code {code}, parameter {number}", cabinet, int(wrong.sum()))
                fits &= ~wrong
        return its[fits | unused]

    def stretches_of(self, device: str) -> Iterator[Any]:
        """Yields the stretches of rows of a device."""
        yield from stretches(self.rows_of(device), 10 * self.hole, self.devices[device], self.findings)

    def lines_of(self, device: str) -> Iterator[list[Line]]:
        """Yields the lines of each stretch of a device."""
        cabinet = self.devices[device]
        tables = self.plan.tables(cabinet)
        for its in self.stretches_of(device):
            planned.compare(its, tables, cabinet, self.findings)
            changes = shown.changes_of(its, tables, cabinet, self.findings)
            for it in shown.stretches_of(changes, int(its["tick"][0])):
                yield it.lines

    def date(self) -> str:
        """Returns the date of the first row."""
        return times.day_text(self.midnight)

    def sentences(self) -> list[str]:
        """Returns what was found, in lines."""
        lines = [sentence(it, self.plan.place(it.cabinet) if it.cabinet else "") for it in self.findings.listed()]
        return [*self.spool.doubts, *lines]


@contextlib.contextmanager
def opened(asked: Asked) -> Iterator[Log]:
    """Reads the rows of a log, which are kept in a folder meanwhile."""
    folder = pathlib.Path(tempfile.mkdtemp(prefix="arterial-log-"))
    try:
        findings = Findings()
        spool = Spool(folder, findings)
        for path in asked.events:
            shown_bar = progress.bar(os.path.getsize(path) or None, "B", unit_scale=True, delay=1)
            try:
                rows.read(path, spool, asked.given, shown_bar.update if shown_bar else None)
            finally:
                if shown_bar:
                    shown_bar.close()
        yield begun(asked, spool, findings)
    finally:
        shutil.rmtree(folder, ignore_errors=True)


def begun(asked: Asked, spool: Spool, findings: Findings) -> Log:
    """Returns the log of rows that were read."""
    if not spool.rows:
        raise Fault(f"{', '.join(asked.events)}: it has no rows that can be read")
    devices = street.cabinets_of(list(spool.counts), asked.plan, asked.devices)
    for device, count in spool.counts.items():
        if device not in devices:
            findings.add("device", f"device {device!r}", count=count)
    known = [device for device in spool.counts if device in devices]
    ticks = [limits(spool.of(device)["tick"]) for device in known]
    first, last = min(it[0] for it in ticks), max(it[1] for it in ticks)
    midnight = first // times.DAY * times.DAY
    if last - midnight > MOST_TICK:
        raise Fault(f"the log has more than 13 years: from {times.day_text(first)} to {times.day_text(last)}")
    if not spool.has_tenths:
        spool.doubts.append("all times are whole seconds: lengths can't be judged to a tenth (--tolerance 10)")
    return Log(asked.plan, findings, spool, {it: devices[it] for it in known}, midnight, first, last, asked.hole)


def limits(ticks: Any) -> tuple[int, int]:
    """Returns the first and the last of some ticks."""
    return int(ticks.min()), int(ticks.max())


def f_line(cabinet: int, line: Line) -> str:
    """Returns a line as an F line; counter, target and version are 0."""
    return f"F {cabinet} {line.tick} {line.colours} {line.signals} {line.mode} 0 0 0\n"


def part_name(path: str, number: int) -> str:
    """Returns the name of a part of a log, from 1: DAY.indications, DAY.2.indications, .."""
    if number == 1:
        return path
    stem, suffix = os.path.splitext(path)
    return f"{stem}.{number}{suffix}"


def write(log: Log, path: str) -> list[str]:
    """Writes the parts of a log, and returns their names. A part that isn't written whole isn't there."""
    aim = os.path.abspath(path)
    room = tempfile.mkdtemp(dir=os.path.dirname(aim), prefix=".log-")
    try:
        count = 0
        shown_bar = progress.bar(len(log.devices), "device", delay=1)
        for device, cabinet in sorted(log.devices.items(), key=lambda it: it[1]):
            for number, lines in enumerate(log.lines_of(device), 1):
                if number > MOST_PARTS:
                    log.findings.add("unjudged", f"from {times.time_text(lines[0].tick)}", cabinet)
                    continue
                count = max(count, number)
                with open(os.path.join(room, str(number)), "a", encoding="ascii") as out:
                    if out.tell() == 0:
                        out.write(log.plan.line())
                    out.writelines(f_line(cabinet, it) for it in lines)
            if shown_bar:
                shown_bar.update()
        if count == 0:
            raise Fault("the log has no row that shows a colour of a phase (codes 1, 7 to 12)")
        names = [part_name(path, number) for number in range(1, count + 1)]
        for number, name in enumerate(names, 1):
            os.replace(os.path.join(room, str(number)), name)
        return names
    finally:
        shutil.rmtree(room, ignore_errors=True)
