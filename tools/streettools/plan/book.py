"""A sheet as a workbook: a page for the street, one for each intersection, one for each list of events. It reads as the
tables of TOML do (book_reading)."""

import datetime
import json
import re
from collections.abc import Iterator
from typing import Any, BinaryIO

import openpyxl
from openpyxl.styles import Alignment, Font, PatternFill
from openpyxl.utils.exceptions import IllegalCharacterError

from ..shared.given import Defect, Unreadable

STREET, FIRST = "Street", "Intersection"
LISTS = ("inputs", "loads", "priority", "frames", "faults", "pulses")
BLOCKS = {
    "coordination": "Coordination", "phase": "Phases", "sequence": "Sequences", "pattern": "Patterns",
    "split": "Splits",
    "preempt": "Preempts", "detector": "Detectors",
}  # fmt: skip
DAY_PLAN, DAY_LISTS = "Day plan", ("days", "months", "dates")
PHASE_LISTS = ("concurrent", "coordinated", "track", "dwell", "dwell_walks", "exit")
WORD_LISTS = ("recall", "kept_options")
HEADING, SMALL = Font(bold=True, size=12), Font(bold=True)
FILL = PatternFill("solid", fgColor="DDE6F0")
BAD_IN_TITLE = re.compile(r"[\[\]:*?/\\']")


def flat(row: dict[str, Any], front: str = "") -> Iterator[tuple[str, object]]:
    """Yields the values of a row by their names; those of a table in it by both names, as splits 3."""
    for name, value in row.items():
        if isinstance(value, dict):
            yield from flat(value, f"{front}{name} ")
        else:
            yield f"{front}{name}", value


def shown(name: str, value: Any) -> object:
    """Returns the value of a page's cell."""
    if name in PHASE_LISTS:
        return " ".join(map(str, value)) or "none"
    if name in WORD_LISTS and isinstance(value, list):
        return ", ".join(value)
    if isinstance(value, datetime.time) and value.microsecond:
        return value.isoformat().rstrip("0")
    return json.dumps(value) if isinstance(value, (list, dict)) else value


def set_cell(page, row: int, column: int, value: object, font: Font | None = None) -> None:
    """Writes a cell. A text that begins with = stays a text."""
    cell = page.cell(row, column)
    try:
        cell.value = value
    except IllegalCharacterError:
        raise Unreadable([Defect(page.title, f"{value!r} has characters that a workbook can't hold")]) from None
    if isinstance(value, str):
        cell.data_type = "s"
    if isinstance(value, datetime.time):
        cell.number_format = "hh:mm:ss"
    if font:
        cell.font, cell.fill = font, FILL


class Page:
    """A page that is written from top to bottom."""

    def __init__(self, page):
        self.page, self.row = page, 0
        page.column_dimensions["A"].width = 24

    def line(self, *values: object, font: Font | None = None) -> None:
        """Writes a line."""
        self.row += 1
        for column, value in enumerate(values, 1):
            if value is not None:
                set_cell(self.page, self.row, column, value, font)

    def pairs(self, table: dict[str, Any]) -> None:
        """Writes a line for each name of a table."""
        for name, value in table.items():
            self.line(name, shown(name, value))

    def block(self, title: str, table: dict[str, Any]) -> None:
        """Writes a block: its title; then columns by number, with a line for each name, or a line for each name and
        value."""
        self.row += 1
        if title == BLOCKS["coordination"]:
            self.line(title, font=HEADING)
            self.pairs(table)
            return
        rows = {
            number: dict(flat(row if isinstance(row, dict) else dict(zip(("ring 1", "ring 2"), row))))
            for number, row in table.items()
        }
        self.line(title, *(int(number) for number in rows), font=HEADING)
        for name in dict.fromkeys(name for row in rows.values() for name in row):
            self.line(name, *(shown(name, row[name]) if name in row else None for row in rows.values()))


def title_for(name: str, number: int, taken: set[str]) -> str:
    """Returns the title of an intersection's page: its name as far as a title may have it."""
    wanted = BAD_IN_TITLE.sub("-", name)[:26].strip() or f"{FIRST} {number}"
    title = wanted if wanted.lower() not in taken else f"{wanted} ({number})"
    taken.add(title.lower())
    return title


def write(sheet: dict[str, Any], path: str | BinaryIO) -> None:
    """Writes a sheet as a workbook, to a file of this name or to one that is open."""
    book = openpyxl.Workbook()
    street = Page(book.active)
    book.active.title = STREET
    street.line(STREET, sheet.get("title", ""), font=HEADING)
    if "units" in sheet:
        street.line("units", sheet["units"])
    for name in ("run", "master", "sections"):
        if name in sheet:
            street.row += 1
            street.line(name, font=HEADING)
            street.pairs(sheet[name])
    if "respond" in sheet:
        street.line("respond", json.dumps(sheet["respond"]))
    if "schedule" in sheet:
        street.row += 1
        street.line("schedule", font=HEADING)
        street.line("at", "section", "pattern", font=SMALL)
        for it in sheet["schedule"]:
            street.line(it["at"], it.get("section"), it["pattern"])
    for plan in sheet.get("day_plan", ()):
        write_day_plan(street, plan)
    taken = {STREET.lower(), *LISTS}
    for number, it in enumerate(sheet["intersection"], 1):
        write_intersection(Page(book.create_sheet(title_for(it.get("name", ""), number, taken))), it)
    for name, items in sheet.get("events", {}).items():
        write_list(Page(book.create_sheet(name)), items)
    book.save(path)


def write_day_plan(page: Page, plan: dict[str, Any]) -> None:
    """Writes a day plan to the page of the street: its name, its days, its schedule."""
    page.row += 1
    page.line(DAY_PLAN, plan["name"], font=HEADING)
    for name in DAY_LISTS:
        if name in plan:
            page.line(name, ", ".join(map(str, plan[name])))
    page.line("schedule")
    page.line("at", "section", "pattern", font=SMALL)
    for it in plan["schedule"]:
        page.line(it["at"], it.get("section"), it["pattern"])


def write_intersection(page: Page, table: dict[str, Any]) -> None:
    """Writes the page of an intersection."""
    page.line(FIRST, table.get("name", ""), font=HEADING)
    page.pairs({name: it for name, it in table.items() if name not in (*BLOCKS, "name", "rings")})
    for number, line in enumerate(table.get("rings", ()), 1):
        page.line(f"ring {number}", line)
    for name, title in BLOCKS.items():
        if table.get(name):
            page.block(title, table[name])
    page.page.freeze_panes = "B2"
    for cells in page.page.iter_rows(min_col=2):
        for cell in cells:
            cell.alignment = Alignment(horizontal="right" if isinstance(cell.value, (int, float)) else "left")


def write_list(page: Page, items: list) -> None:
    """Writes a list of events, an item a line."""
    names = list(dict.fromkeys(name for item in items for name in item))
    page.line(*names, font=SMALL)
    for item in items:
        page.line(*(shown(name, item[name]) if name in item else None for name in names))
