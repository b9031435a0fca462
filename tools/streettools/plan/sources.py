"""Files that `plan` reads: sheets (TOML), workbooks, scenarios and field files (JSON), distinguished by their names or
by their first letters."""

import pathlib
from collections.abc import Callable, Iterator
from dataclasses import dataclass, field
from typing import Any

from ..shared import shapes
from ..shared.given import Defect, Unreadable, content_of
from . import jsontext, names, reading, toml_text
from .findings import Finding, Level
from .reading import Street
from ..shared.values import MOST_BYTES


@dataclass
class Source:
    """A file: its name, its text if it is JSON, or if it is a sheet in TOML, what it means, and what was found while it
    was read."""

    path: str
    text: str | None = None
    sheet: str | None = None
    street: Street | None = None
    findings: list[Finding] = field(default_factory=list)

    def error(self, words: str, where: str = "", line: str | None = None, place: str | None = None) -> None:
        """Keeps an error."""
        self.findings.append(Finding(Level.ERROR, where, words, line=line, place=place))

    @property
    def errors(self) -> list[Finding]:
        """What keeps the file from being taken."""
        return [it for it in self.findings if it.level is Level.ERROR]


def load(path: str, named: str | None = None) -> Source:
    """Reads a file. `named` is the file with the names of a scenario; the default is the one next to the scenario, if
    it exists."""
    return source_of(path, content_of(path), lambda: names_of(path, named))


def source_of(path: str, content: bytes, known: Callable[[], names.Names]) -> Source:
    """Returns the result of a file with this name and content; `known` gives the names of a scenario."""
    source = Source(path)
    if path.endswith(".xlsx") or content[:4] == b"PK\x03\x04":
        from . import book_reading  # here, since openpyxl takes a while

        read_sheet(source, lambda: book_reading.read(content))
    elif path.endswith(".json") or (not path.endswith(".toml") and content.lstrip()[:1] == b"{"):
        read_json(source, content, known())
    else:
        read_sheet(source, lambda: (toml_text.read(sheet_of(source, content)), []))
    return source


def sheet_of(source: Source, content: bytes) -> str:
    """Returns the text of a sheet, and keeps it."""
    source.sheet = utf8(content)
    return source.sheet


def utf8(content: bytes) -> str:
    """Returns the text of a sheet."""
    try:
        return jsontext.decoded(content.removeprefix(b"\xef\xbb\xbf")).replace("\r\n", "\n")
    except jsontext.NoJson as fault:
        raise Unreadable([Defect(str(fault.place), fault.words)]) from None


def names_of(path: str, named: str | None) -> names.Names:
    """Returns the names of a scenario."""
    if named is not None:
        return names.read(pathlib.Path(named).read_text(encoding="utf-8"))
    beside = names.beside(pathlib.Path(path))
    return names.read(beside.read_text(encoding="utf-8")) if path != "-" and beside.is_file() else names.Names()


def read_sheet(source: Source, read: Callable[[], tuple[dict, list[str]]]) -> None:
    """Reads a sheet, with what was left out of it."""
    try:
        sheet, notes = read()
    except Unreadable as unreadable:
        for fault in unreadable.faults:
            source.error(fault.words, fault.where)
        return
    street, faults = reading.read_sheet(sheet)
    street.notes = notes + street.notes
    for fault in faults:
        source.error(fault.words, fault.where)
    for wrong in () if faults else shapes.scenario_faults(street.scenario):
        where = f"events, {wrong.path}" if wrong.path.startswith(reading.LISTS) else wrong.path
        source.error(wrong.words, where, line=wrong.line)
    for note in street.notes:
        source.findings.append(Finding(Level.NOTE, "", note))
    source.street = street


def is_field_file(value: object) -> bool:
    """Returns whether a value is a field file, which has a scenario inside."""
    return isinstance(value, dict) and isinstance(value.get("scenario"), dict)


def faults_of(text: str, value: Any) -> Iterator[Finding]:
    """Yields the faults of the names and values of a scenario or a field file, as they are found."""
    is_field = is_field_file(value)
    front = "scenario." if is_field else ""
    for fault in shapes.scenario_faults(value["scenario"] if is_field else value):
        path = front + fault.path if fault.path != "." else front.rstrip(".") or "."
        line = f"scenario: {fault.what} {path}"
        yield Finding(Level.ERROR, fault.path, fault.words, line=line, place=str(jsontext.place_of(text, path)))
    for fault in shapes.field_faults(value) if is_field else ():
        place = str(jsontext.place_of(text, fault.path))
        yield Finding(Level.ERROR, fault.path, fault.words, line=fault.line, place=place)


def read_json(source: Source, content: bytes, known: names.Names) -> None:
    """Reads a scenario or a field file."""
    if len(content) > MOST_BYTES:
        source.error(f"expected at most {MOST_BYTES} bytes, found {len(content)}", line="scenario: limit .")
        return
    try:
        value: Any = jsontext.read(content)
    except jsontext.NoJson as fault:
        source.error(fault.words, line="scenario: not JSON", place=str(fault.place))
        return
    source.text = content.decode()
    is_field = is_field_file(value)
    scenario = value["scenario"] if is_field else value
    source.findings += faults_of(source.text, value)
    if isinstance(scenario, dict) and not any(
        fault.startswith(("cabinets", ".", "version")) for fault in (it.where for it in source.errors)
    ):
        around = (
            {name: value.get(name) for name in ("pulses", "respond")} if is_field else {"pulses": None, "respond": None}
        )
        source.street = Street(scenario, known, [], value.get("bank", []) if is_field else [], **around)
