"""The text of a sheet: TOML with a line for each phase, and the tables in the order in which people read them."""

import datetime
import re
from collections.abc import Iterator

import tomli_w
from typing import Any

from ..shared.given import Defect, Unreadable, plain
from . import toml_hints

HEAD = "# A timing sheet, in seconds. Omitted values come from the standard table; docs/PLANS.md has all names.\n"
ROWS = ("phase", "detector", "sequence")
"""Tables of an intersection with a line for each row."""

BLOCKS = ("pattern", "split", "preempt")
"""Tables of an intersection with a block for each row."""

AT = re.compile(r"(.*) \(at (?:line (\d+), column (\d+)|end of document)\)")


def scalar(value: object) -> str:
    """Returns a value in one line."""
    match value:
        case bool():
            return "true" if value else "false"
        case int() | float():
            return repr(value)
        case datetime.date():
            return value.isoformat()
        case datetime.time():
            return value.isoformat().rstrip("0") if value.microsecond else value.isoformat()
        case str():
            return tomli_w.dumps({"x": value})[4:-1]
        case dict():
            return "{" + ", ".join(f"{key(name)} = {scalar(it)}" for name, it in value.items()) + "}"
        case list() | tuple():
            return "[" + ", ".join(map(scalar, value)) + "]"
    raise TypeError(f"{value!r} has no text in TOML")


def key(name: str) -> str:
    """Returns a name, quoted if it must be."""
    return name if re.fullmatch(r"[A-Za-z0-9_-]+", name) else scalar(name)


def pairs(table: dict[str, Any]) -> Iterator[str]:
    """Yields a line for each name of a table."""
    for name, value in table.items():
        yield f"{key(name)} = {scalar(value)}"


def rows(name: str, items: list) -> Iterator[str]:
    """Yields a list with a line for each item."""
    if not items:
        yield f"{name} = []"
        return
    yield f"{name} = ["
    for item in items:
        yield f"  {scalar(item)},"
    yield "]"


def intersection(table: dict[str, Any]) -> Iterator[str]:
    """Yields the lines of an intersection."""
    yield "[[intersection]]"
    for name, value in table.items():
        if name == "rings":
            yield from rows("rings", value)
        elif not isinstance(value, dict):
            yield f"{key(name)} = {scalar(value)}"
    if "coordination" in table:
        yield from ("", "[intersection.coordination]", *pairs(table["coordination"]))
    for name in ROWS:
        if name in table:
            yield from ("", f"[intersection.{name}]", *pairs(table[name]))
    for name in BLOCKS:
        for number, row in table.get(name, {}).items():
            yield from ("", f"[intersection.{name}.{number}]", *pairs(row))


def lines(sheet: dict[str, Any]) -> Iterator[str]:
    """Yields the lines of a sheet."""
    for name, value in sheet.items():
        if name == "schedule":
            yield from rows(name, value)
        elif not isinstance(value, (dict, list)):
            yield f"{key(name)} = {scalar(value)}"
    for name in ("run", "master", "sections"):
        if sheet.get(name):
            yield from ("", f"[{name}]", *pairs(sheet[name]))
    for plan in sheet.get("day_plan", ()):
        yield from ("", "[[day_plan]]", *pairs({name: it for name, it in plan.items() if name != "schedule"}))
        yield from rows("schedule", plan["schedule"])
    for table in sheet["intersection"]:
        yield ""
        yield from intersection(table)
    if "respond" in sheet:
        yield from ("", "[respond]", *pairs(sheet["respond"]))
    if "events" in sheet:
        yield from ("", "[events]")
        for name, items in sheet["events"].items():
            yield from rows(name, items)


def text(sheet: dict[str, Any]) -> str:
    """Returns the text of a sheet."""
    return HEAD + "\n".join(lines(sheet)) + "\n"


def read(content: str) -> dict[str, Any]:
    """Returns the sheet that a text is; raises Unreadable, with line and column, if it isn't valid TOML."""
    try:
        return plain(content)
    except ValueError as fault:
        found = AT.fullmatch(str(fault))
        if not found:
            raise Unreadable([Defect("", f"no TOML: {fault}")]) from None
        where = f"line {found[2]}, column {found[3]}" if found[2] else "at the end"
        line = content.split("\n")[int(found[2]) - 1] if found[2] else content.rstrip().rpartition("\n")[2]
        hint = toml_hints.hint(line, int(found[3] or len(line)) - 1, found[1])
        told = f"no TOML: {found[1][:1].lower()}{found[1][1:]}"
        words = f"{hint} ({told})" if hint else told
        raise Unreadable([Defect(where, words)]) from None
