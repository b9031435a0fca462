"""The text of `snmpwalk -On` of a controller after NTCIP 1202: its objects, and the cabinet that they are."""

import re
from collections.abc import Iterable, Iterator
from dataclasses import dataclass, field
from typing import Any

from ..shared import oids
from ..shared.ber import Arcs
from ..shared.tables import Tables
from . import names
from ..shared.cells import Lists, cells_between, kinds, put, unset
from ..shared.clock import DAY_TICKS
from ..shared.given import Defect, Unreadable
from .reading import USUAL_RUN, Street

Name = Arcs
FRONTS = {"iso": "1", "SNMPv2-SMI::enterprises": "1.3.6.1.4.1", "enterprises": "1.3.6.1.4.1"}
ARC = r"[0-9]{1,10}"
LINE = re.compile(rf"(\.?(?:iso|SNMPv2-SMI::enterprises|enterprises|{ARC})(?:\.{ARC}){{1,127}}) = ?(.*)", re.DOTALL)
NUMBER = re.compile(r"\((-?[0-9]{1,19})\)|(?<![0-9])(-?[0-9]{1,19})(?![0-9])")
"""A number in a value: that in parentheses, as in `shortway(3)`, or the first one."""
BELOW_ASC = len(oids.ASC)
TABLES = {arcs[BELOW_ASC:]: name for name, arcs in oids.ENTRIES.items()}
UNIT = {arcs: column for column, arcs in oids.UNIT.items()}
FORCE_MODE, BACKUP = oids.ASC + (4, 4, 0), oids.ASC + (3, 3, 0)
SEQUENCE, DETECTOR = oids.SEQUENCE_DATA[BELOW_ASC:], oids.DETECTOR_ENTRY[BELOW_ASC:]
FORCE_WORDS = {2: 2, 3: 1}
"""coordForceMode of NTCIP 1202, 2 floating and 3 fixed, as this project's force mode."""

DETECTOR_COLUMNS = {4: "phase", 6: "delay", 7: "extend", 9: "no_activity", 10: "max_presence", 11: "erratic"}
PER_SECOND = {"delay": 0.1, "extend": 0.1, "no_activity": 60, "max_presence": 60}
STATUS = ((1, 4), (4, 10), (4, 11), (4, 12), (4, 13))
"""Objects below asc that are a present state, and so have no place in a plan."""

SUBJECTS = {
    (1, 1): "maxPhases", (1, 3): "maxPhaseGroups", (1, 5): "phaseControlGroupTable", (2,): "detector", (3,): "unit",
    (4, 1): "coordOperationalMode", (4, 3): "coordMaximumMode", (4, 4): "coordForceMode", (4, 5): "maxPatterns",
    (4, 6): "patternTableType", (4, 8): "maxSplits", (4, 15): "systemSyncControl", (5,): "timebaseAsc",
    (6, 1): "maxPreempts",
    (6, 2): "preemptTable", (6,): "preempt", (7, 1): "maxRings", (7, 2): "maxSequences", (7, 3): "sequenceTable",
    (8,): "channel",
    (9,): "overlap", (10,): "ts2port1", (1, 2): "phaseTable", (4, 7): "patternTable", (4, 9): "splitTable",
}  # fmt: skip


def entries(text: str) -> Iterator[tuple[Name, str]]:
    """Yields each object of a walk with the text of its value, which may continue over several lines."""
    name, value = None, ""
    for line in text.splitlines(keepends=True):
        found = LINE.fullmatch(line.rstrip("\r\n"))
        if found:
            if name is not None:
                yield name, value
            name, value = name_of(found[1]), found[2]
            value += "\n" if line.endswith("\n") else ""
        elif name is not None:
            value += line
    if name is not None:
        yield name, value


def name_of(text: str) -> Name:
    """Returns the arcs of a name."""
    text = text.lstrip(".")
    for front, digits in FRONTS.items():
        if text.startswith(front + "."):
            text = digits + text[len(front) :]
    return tuple(map(int, text.split(".")))


def value_of(text: str) -> int | bytes | None:
    """Returns a number or octets; None of what is neither."""
    kind, colon, rest = text.partition(":")
    if kind in ("INTEGER", "Gauge32", "Counter32", "Unsigned32") and colon:
        found = NUMBER.search(rest)
        return int(found[1] or found[2]) if found else None
    if kind == "Hex-STRING" and colon:
        digits = "".join(rest.split())
        return bytes.fromhex(digits) if re.fullmatch(r"([0-9A-Fa-f]{2})*", digits) else None
    if kind == "STRING" and colon:
        return quoted(rest.removeprefix(" "))
    return b"" if text.strip() == '""' else None


def quoted(text: str) -> bytes | None:
    """Returns the octets of a text in quotes, which may hold line ends."""
    text = text.removesuffix("\n")
    if len(text) < 2 or text[0] != '"' or text[-1] != '"':
        return None
    return re.sub(r"\\(.)", r"\1", text[1:-1], flags=re.DOTALL).encode("latin-1", "replace")


def read(text: str) -> dict[Name, int | bytes]:
    """Returns the objects of a walk."""
    found = {name: value_of(value) for name, value in entries(text)}
    known = {name: value for name, value in found.items() if value is not None}
    if not known:
        words = (
            "no line is a name in numbers with its value, as `.1.3.6.1.4.1.1206.4.2.1.1.2.1.4.2 = INTEGER: 10`: walk "
            "with -On"
        )
        raise Unreadable([Defect("", words)])
    return known


def cell_of(name: Name) -> tuple | None:
    """Returns the cell that an object is, None if it is none."""
    if name in UNIT:
        return "unit", UNIT[name]
    rest = name[BELOW_ASC:]
    if name[:BELOW_ASC] != oids.ASC:
        return None
    if rest[:4] == SEQUENCE and len(rest) == 6:
        cell: tuple = ("sequence", *rest[4:])
    elif rest[:3] in TABLES and len(rest) > 4:
        cell = (TABLES[rest[:3]], *rest[4:], rest[3])
    else:
        return None
    return cell if cell in kinds() else None


@dataclass
class Walked:
    """The result of a walk: tables, the pattern in command, the clock, detectors, and the objects without a place."""

    tables: Tables = field(default_factory=Tables)
    command: int = 0
    clock: int = 0
    detectors: dict[int, dict[str, int]] = field(default_factory=dict)
    placed: int = 0
    without: dict[str, list[str]] = field(default_factory=dict)

    def clear(self, names: Iterable[Name]) -> None:
        """Empties the tables of which a controller has anything, and the patterns: what it doesn't tell isn't that of
        the standard table."""
        told = {cell[0] for cell in map(cell_of, names) if cell is not None} | {"pattern"}
        for cell in kinds():
            if cell[0] in told and cell[0] != "unit":
                put(self.tables, cell, unset(cell))

    def leave(self, name: Name, why: str = "") -> None:
        """Keeps an object that has no place."""
        rest = name[BELOW_ASC:] if name[:BELOW_ASC] == oids.ASC else None
        subject = next(
            (word for front, word in sorted(SUBJECTS.items(), reverse=True) if rest and rest[: len(front)] == front), ""
        )
        key = f"{subject or 'others'}{f' ({why})' if why else ''}"
        self.without.setdefault(key, []).append(oids.dotted(name))

    def take(self, name: Name, value: int | bytes) -> None:
        """Reads an object."""
        cell, rest = cell_of(name), name[BELOW_ASC:]
        if cell is not None:
            self.take_cell(name, cell, value)
        elif name == oids.CONTROL and isinstance(value, int) and 0 <= value <= 255:
            self.command = value
        elif name == oids.CLOCK and isinstance(value, int) and 0 <= value < DAY_TICKS:
            self.clock = value
        elif name == BACKUP:
            self.take_cell(name, ("unit", 5), value)
        elif name == FORCE_MODE and isinstance(value, int) and value in FORCE_WORDS:
            put(self.tables, ("unit", 7), FORCE_WORDS[value])
        elif (
            name[:BELOW_ASC] == oids.ASC
            and rest[:3] == DETECTOR
            and len(rest) == 5
            and rest[3] in DETECTOR_COLUMNS
            and isinstance(value, int)
        ):
            self.detectors.setdefault(rest[4], {})[DETECTOR_COLUMNS[rest[3]]] = value
        elif not self.is_quiet(name, rest):
            self.leave(name)

    def is_quiet(self, name: Name, rest: Name) -> bool:
        """Tells whether an object has nothing of a plan: an index, or a present state."""
        if name[: len(oids.OWN)] == oids.OWN:
            return True
        is_index = (
            rest[:3] in (*TABLES, DETECTOR)
            and rest[3:4] in ((1,), (2,))
            and not (rest[:3] == (6, 2, 1) and rest[3] == 2)
        )
        is_index = is_index and not (rest[:3] == DETECTOR and rest[3] == 2)
        return name[:BELOW_ASC] == oids.ASC and (
            is_index or rest[:4] in ((7, 3, 1, 1), (7, 3, 1, 2)) or any(rest[:2] == it for it in STATUS)
        )

    def take_cell(self, name: Name, cell: tuple, value: int | bytes) -> None:
        """Reads an object that is a cell, if its value is allowed there."""
        kind = kinds()[cell]
        if isinstance(kind, Lists):
            fits = isinstance(value, bytes) and len(value) <= kind.longest
        else:
            fits = isinstance(value, int) and kind.least <= value <= kind.most
        if fits:
            self.placed += 1
            put(self.tables, cell, tuple(value) if isinstance(value, bytes) else value)
        else:
            self.leave(name, "out of range")


def bank_of(walked: Walked, cabinet: int, notes: list[str]) -> list[dict]:
    """Returns the detectors that call a phase, in rounds of a second; what isn't whole is rounded up, and named."""
    bank = []
    for number, row in sorted(walked.detectors.items()):
        if not 1 <= row.get("phase", 0) <= 16 or number > 64:
            continue
        times = {}
        for name, unit in PER_SECOND.items():
            seconds = row.get(name, 0) * unit
            times[name] = -int(-seconds // 1)
            if abs(times[name] - seconds) > 1e-9:
                notes.append(
                    f"detector {number}: {name} of {seconds:g} s is rounded to {times[name]} s, whole rounds"
                )
        bank.append(
            {
                "cabinet": cabinet,
                "detector": number,
                "phase": row["phase"],
                **times,
                "erratic": min(row.get("erratic", 0), 255),
            }
        )
    return bank


def street_of(walks: list[dict[Name, int | bytes]], called: list[str]) -> Street:
    """Returns the street of some controllers, each walked over."""
    street = Street({**USUAL_RUN, "cabinets": []}, names.Names())
    for number, objects in enumerate(walks, 1):
        walked = Walked()
        walked.clear(objects)
        for name, value in objects.items():
            walked.take(name, value)
        if not walked.placed:
            raise Unreadable(
                [Defect(called[number - 1], "nothing of the phase, split and pattern tables of NTCIP 1202 is in it")]
            )
        cabinet: dict[str, Any] = {"base": "std8", "cells": cells_between(Tables("std8"), walked.tables)}
        cabinet |= {name: it for name, it in (("pattern", walked.command), ("clock", walked.clock)) if it}
        street.scenario["cabinets"].append(cabinet)
        street.names.intersections.append(names.Intersection(name=called[number - 1]))
        street.notes.append(f"{called[number - 1]}: {walked.placed} cells taken")
        for subject, left in walked.without.items():
            street.notes.append(
                f"{called[number - 1]}: no place for {len(left)} of {subject}: "
                f"{left[0]}{' ..' if len(left) > 1 else ''}"
            )
        street.bank += bank_of(walked, number, street.notes)
    return street
