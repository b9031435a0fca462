"""The text of UTDF (Synchro's Universal Traffic Data Format): comma-separated sections of records, all in one file
(versions 7 and 8), in a file for each section, or as the older files LAYOUT, LANES, PHASING, TIMING and VOLUME."""

import csv
import math
import re
from collections.abc import Iterable, Iterator
from dataclasses import dataclass, field

from ..shared.given import Defect, Unreadable

TITLES = {
    "network settings": "network", "node data": "nodes", "link data": "links", "lane group data": "lanes",
    "timing plan settings": "timeplans", "phasing data": "phases", "timing plans": "plans",
    "layout data": "layout", "layout": "layout", "turning movement count": "volumes",
}  # fmt: skip
HEADERS = ("RECORDNAME", "INTID", "PLANID", "DATE")
SECTIONS = ("network", "nodes", "links", "lanes", "timeplans", "phases", "plans", "layout", "volumes")
INTERVAL = re.compile(r"([0-9]{1,3}) minute counts?", re.IGNORECASE)
NUMBER = re.compile(r"[+-]?([0-9]{1,15}(\.[0-9]{0,15})?|\.[0-9]{1,15})([eE][+-]?[0-9]{1,2})?")
MOST_ROWS = 200_000
"""A file has at most this number of lines: 5,000 intersections have fewer."""


class Entry(str):
    """What a field says, and where it is: the file, the line, the column from 1 and its header."""

    file: str = ""
    line: int = 0
    column: int = 0
    header: str = ""

    @classmethod
    def at(cls, text: str, file: str, line: int, column: int, header: str) -> "Entry":
        """Returns a field at its place."""
        found = cls(text)
        found.file, found.line, found.column, found.header = file, line, column, header
        return found

    def place(self) -> str:
        """Returns where the field is."""
        return f"{self.file}{', ' if self.file else ''}line {self.line}, column {self.column} ({self.header})"


BLANK = Entry("")
Row = dict[str, Entry]


@dataclass
class Utdf:
    """Sections by name, each with its records; a record has the names of the header. `strange` are lines of sections
    that aren't known, `faults` the fields that can't be read, `interval` the minutes of a count, `notes` are notes on
    the whole file."""

    sections: dict[str, list[Row]] = field(default_factory=dict)
    strange: list[str] = field(default_factory=list)
    faults: list[Defect] = field(default_factory=list)
    interval: int = 60
    notes: list[str] = field(default_factory=list)

    def records(self, section: str) -> list[Row]:
        """Returns the records of a section."""
        return self.sections.get(section, [])

    def table(self, section: str, node: str) -> dict[str, Row]:
        """Returns the records of an intersection by their names."""
        return {
            str(it["RECORDNAME"]): it
            for it in self.records(section)
            if it.get("INTID") == node and it.get("RECORDNAME")
        }

    def setting(self, name: str) -> Entry:
        """Returns a setting of the network; blank if there is none."""
        found = (
            it.get("DATA", BLANK)
            for it in self.records("network")
            if it.get("RECORDNAME", BLANK).lower() == name.lower()
        )
        return next(found, BLANK)

    def number(self, entry: Entry | None) -> float | None:
        """Returns the number that a field has, None if it is blank. One that can't be read is kept as a fault."""
        if not entry:
            return None
        if NUMBER.fullmatch(entry) and math.isfinite(float(entry)):
            return float(entry)
        hint = ": a decimal point, not a comma" if re.fullmatch(r"[0-9]+,[0-9]+", entry) else ""
        self.fault(entry, f"{str(entry)[:40]!r} is not a number{hint}")
        return None

    def whole(self, entry: Entry | None) -> int | None:
        """Returns the whole number that a field has, None if it is blank."""
        found = self.number(entry)
        if found is not None and entry and not found.is_integer():
            self.fault(entry, f"{str(entry)[:40]!r} is not a whole number")
            return None
        return None if found is None else int(found)

    def fault(self, entry: Entry, words: str) -> None:
        """Keeps what is wrong with a field, once."""
        fault = Defect(entry.place(), words)
        if fault not in self.faults:
            self.faults.append(fault)

    def end(self) -> None:
        """Refuses a file with fields that can't be read: all of them at once."""
        if self.faults:
            raise Unreadable(self.faults)


def rows_of(text: str, file: str) -> Iterator[tuple[int, list[str]]]:
    """Yields the number of each line, and its fields."""
    lines = csv.reader(text.removeprefix("\ufeff").splitlines(), strict=True)
    try:
        for row in lines:
            if lines.line_num > MOST_ROWS:
                raise Unreadable([Defect(file, f"more than {MOST_ROWS} lines")])
            yield lines.line_num, [it.strip() for it in row]
    except csv.Error as fault:
        raise Unreadable([Defect(f"{file} line {lines.line_num}".strip(), f"not comma-separated: {fault}")]) from None


def section_of(first: str, row: list[str]) -> str | None:
    """Returns the section that a line begins, None if it begins none."""
    title = first.strip("[]").lower()
    if first.startswith("[") and first.endswith("]"):
        return title
    return TITLES[title] if title in TITLES and not any(row[1:]) else None


def record_of(header: list[str], row: list[str], file: str, line: int, found: Utdf) -> Row:
    """Returns a record. Fields after those of the header are a fault: a comma within a number moves all fields after
    it."""
    entries = [
        Entry.at(it, file, line, column, header[column - 1] if column <= len(header) else "no header")
        for column, it in enumerate(row, 1)
    ]
    for entry in entries[len(header) :]:
        if entry:
            found.fault(entry, f"{str(entry)[:40]!r} is after the last column of the header: a comma too many?")
            break
    return dict(zip(header, entries))


def add(found: Utdf, text: str, file: str) -> None:
    """Adds what a file has."""
    section: str | None = None
    header: list[str] | None = None
    for line, row in rows_of(text, file):
        first = row[0] if row else ""
        if not any(row):
            continue
        begun = section_of(first, row)
        if begun is not None:
            section, header = begun, None
        elif header is None and section == "volumes" and (count := INTERVAL.fullmatch(first)):
            found.interval = max(1, int(count[1]))
        elif first.upper() in HEADERS and header is None and section is not None:
            header = [it.upper() if it.upper() in (*HEADERS, "TIME") or section == "layout" else it for it in row]
        elif header is None or section is None:
            found.strange.append(first)
        else:
            found.sections.setdefault(section, []).append(record_of(header, row, file, line, found))


def find_repeated(found: Utdf) -> None:
    """Keeps a fault for each record of a node that is repeated with other values."""
    for section in ("links", "lanes", "timeplans", "phases", "network"):
        known: dict[tuple[str, str], Row] = {}
        for row in found.records(section):
            name, node = str(row.get("RECORDNAME", "")), str(row.get("INTID", ""))
            before = known.setdefault((name, node), row)
            if name and before != row:
                of = f" of node {node}" if node else ""
                first = row["RECORDNAME"]
                found.fault(first, f"{name}{of} is repeated with other values, after line {before['RECORDNAME'].line}")


def read_all(texts: Iterable[tuple[str, str]]) -> Utdf:
    """Returns what some UTDF files have together, each a name and a text."""
    found = Utdf()
    for file, text in texts:
        add(found, text, file)
    find_repeated(found)
    if not found.records("phases"):
        words = "a section [Phases], or a line `Phasing Data`, with a header RECORDNAME,INTID,D1,.."
        raise Unreadable([Defect("", f"no phases in it: {words}")])
    return found


def read(text: str, file: str = "") -> Utdf:
    """Returns what a UTDF file has."""
    return read_all([(file, text)])
