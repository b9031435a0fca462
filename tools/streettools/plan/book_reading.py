"""A workbook as a sheet: the pages that `book` writes, even if people have changed them.

Pages are read row by row, as far as there are cells: a cell far outside takes no memory for those before it.
"""

import io
import json
import re
import warnings
import zipfile
from collections.abc import Iterator
from dataclasses import dataclass, field

import openpyxl
from typing import Any

from .book import BLOCKS, DAY_LISTS, DAY_PLAN, FIRST, LISTS, PHASE_LISTS, STREET, WORD_LISTS
from ..shared.given import Defect, Unreadable

TITLES = {title: name for name, title in BLOCKS.items()}
MOST_OCTETS = 64 * 2**20
"""The maximum number of bytes of an unpacked workbook: 64 intersections with all tables have 12 MiB."""
MOST_PAGES, MOST_ROWS, MOST_COLUMNS = 200, 2**21, 256
"""How many pages of a workbook are read, how many rows of these together, and how many cells of a row. A page of a
street has at most 65 columns; Excel has at most 2**20 rows on a page."""


@dataclass
class Page:
    """A page: its title, its rows up to the last cell in each, and what was left out, in words."""

    title: str
    rows: list[list] = field(default_factory=list)
    left_out: str = ""


def opened(content: bytes) -> openpyxl.Workbook:
    """Returns a workbook that is opened for reading."""
    with zipfile.ZipFile(io.BytesIO(content)) as packed:
        if sum(it.file_size for it in packed.infolist()) > MOST_OCTETS:
            raise Unreadable([Defect("", f"the workbook has more than {MOST_OCTETS >> 20} MiB when it is unpacked")])
    return openpyxl.load_workbook(io.BytesIO(content), read_only=True, data_only=True, keep_links=False)


def pages(content: bytes) -> Iterator[Page]:
    """Yields the pages of a workbook. Any fault of openpyxl for a damaged file becomes one refusal."""
    warnings.filterwarnings("ignore", module="openpyxl")
    try:
        book, left = opened(content), MOST_ROWS
        if len(book.worksheets) > MOST_PAGES:
            raise Unreadable([Defect("", f"the workbook has more than {MOST_PAGES} pages")])
        for sheet in book.worksheets:
            page, count = page_of(sheet, left)
            left -= count
            yield page
    except (Unreadable, MemoryError):
        raise
    except Exception:
        raise Unreadable([Defect("", "no workbook (.xlsx)")]) from None


def page_of(sheet, most: int) -> tuple[Page, int]:
    """Returns a page, and how many rows were read for it (at most one more than `most`). Rows without cells are
    dropped."""
    sheet.reset_dimensions()
    page, count = Page(sheet.title), 0
    for row in sheet.iter_rows(max_row=most + 1, values_only=True):
        count += 1
        if count > most:
            page.left_out = f"rows after {most}"
            break
        cells = list(row[:MOST_COLUMNS])
        if len(row) > MOST_COLUMNS and any(it is not None for it in row[MOST_COLUMNS:]):
            page.left_out = f"columns after {MOST_COLUMNS}"
        while cells and (cells[-1] is None or cells[-1] == ""):
            cells.pop()
        if cells:
            page.rows.append(cells)
    return page, count


def read(content: bytes) -> tuple[dict, list[str]]:
    """Returns the sheet in a workbook, and what was left out of it, in words."""
    sheet: dict[str, Any] = {"intersection": []}
    notes = []
    for page in list(pages(content)):
        rows = page.rows
        first = str(rows[0][0] or "").strip() if rows else ""
        if page.left_out:
            notes.append(f"page {page.title!r}: there is more, and {page.left_out} are left out")
        if page.title in LISTS:
            sheet.setdefault("events", {})[page.title] = list(read_list(rows))
        elif first == FIRST:
            sheet["intersection"].append(read_intersection(rows, page.title))
        elif first == STREET:
            read_street(rows, sheet)
        elif rows:
            words = f'page {page.title!r} is not of a sheet: its first cell is neither "{STREET}" nor "{FIRST}"'
            raise Unreadable([Defect("", words)])
    return sheet, notes


def from_json(value: object, name: str) -> object:
    """Returns what a page's cell has as JSON."""
    try:
        return json.loads(str(value))
    except ValueError:
        raise Unreadable([Defect(name, f"{str(value)[:40]!r} is not valid JSON")]) from None


def read_value(name: str, value: object) -> object:
    """Returns the value of a page's cell."""
    last = (name.split() or [""])[0]
    if last == "conflicts" and isinstance(value, str):
        return from_json(value, name)
    if last in PHASE_LISTS:
        words = str(value).replace(",", " ").split()
        return [] if words == ["none"] else [int(it) if it.isdecimal() else it for it in words]
    if last in WORD_LISTS and isinstance(value, str) and "," in value:
        return [it.strip() for it in value.split(",")]
    if isinstance(value, str):
        return value.strip()
    return int(value) if isinstance(value, float) and value.is_integer() else value


def filled(rows: list[list]) -> Iterator[list]:
    """Yields the rows, each with its name as text."""
    for row in rows:
        yield [str(row[0]).strip() if row[0] is not None else "", *row[1:]]


def read_intersection(rows: list[list], title: str) -> dict[str, Any]:
    """Returns the intersection of a page."""
    table: dict[str, Any] = {}
    block: str | None = None
    numbers: list = []
    for row in filled(rows):
        name, values = row[0], row[1:]
        if name == FIRST:
            if values:
                table["name"] = str(values[0])
        elif name in TITLES:
            block, numbers = TITLES[name], values
            table.setdefault(block, {})
        elif block is None or block == "coordination":
            read_pair(table if block is None else table[block], name, values)
        else:
            read_row(table[block], block, name, numbers, values)
    for number, it in table.get("sequence", {}).items():
        table["sequence"][number] = [str(it.get(f"ring {ring}", "")) for ring in (1, 2)]
    return table


def read_pair(table: dict[str, Any], name: str, values: list) -> None:
    """Reads a name and its value; the lines of rings are a list."""
    if re.fullmatch("ring [12]", name):
        table.setdefault("rings", []).append(str(values[0]) if values else "")
    elif values:
        table[name] = read_value(name, values[0])


def read_row(block: dict[str, Any], kind: str, name: str, numbers: list, values: list) -> None:
    """Reads a line of a block: a value for each number."""
    for number, value in zip(numbers, values):
        if value is None or number is None:
            continue
        key = str(int(number)) if isinstance(number, float) and number.is_integer() else str(number)
        row = block.setdefault(key, {})
        front, _, phase = name.rpartition(" ")
        if front in ("splits", "modes"):
            row.setdefault(front, {})[phase] = read_value(front, value)
        else:
            row[name] = read_value(name, value) if kind != "sequence" else value


def read_days(name: str, value: object) -> object:
    """Returns the days, months or dates of a day plan."""
    if not isinstance(value, str):
        return [value]
    if " to " in value:
        return value.strip()
    words = [it.strip() for it in value.split(",")]
    return [int(it) if it.isdecimal() else it for it in words] if name == "months" else words


def read_street(rows: list[list], sheet: dict[str, Any]) -> None:
    """Reads the page of the street."""
    block, header = None, False
    day: dict[str, Any] | None = None
    for row in filled(rows):
        name, values = row[0], row[1:]
        if name == DAY_PLAN:
            block = day = {"name": str(values[0])} if values else {}
            sheet.setdefault("day_plan", []).append(day)
        elif day is not None and name in DAY_LISTS and values:
            day[name] = read_days(name, values[0])
        elif day is not None and name == "schedule" and not values:
            block, header = day.setdefault("schedule", []), True
        elif name == STREET:
            if values:
                sheet["title"] = str(values[0])
        elif name in ("run", "master", "sections") and not values:
            block = sheet.setdefault(name, {})
        elif name == "schedule" and not values:
            block, header = sheet.setdefault("schedule", []), True
        elif name == "respond" and values:
            sheet["respond"] = from_json(values[0], "respond")
        elif header:
            header = False
        elif isinstance(block, list):
            block.append(
                {key: read_value(key, it) for key, it in zip(("at", "section", "pattern"), row) if it is not None}
            )
        elif block is None:
            read_pair(sheet, name, values)
        else:
            read_pair(block, name, values)


def read_list(rows: list[list]) -> Iterator[dict]:
    """Yields the items of a list of events."""
    names = [str(it) for it in rows[0] if it is not None] if rows else []
    for row in rows[1:]:
        item = {name: it for name, it in zip(names, row) if it is not None}
        if "cells" in item:
            item["cells"] = from_json(item["cells"], "cells")
        if item:
            yield item
