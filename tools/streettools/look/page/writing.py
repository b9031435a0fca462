"""Puts a page together: its frame, its style, the drawing library, its code and its data, in one file.

The library is D3 as Debian's `node-d3` packages it: it has scales, axes, zoom by wheel, pinch and drag, and searches in
rising lists. The page has all of it, with its licence, so that the page needs no network.
"""

import html
import json
import pathlib
import re
from collections.abc import Iterator
from typing import Any, NamedTuple

from streettools.shared import files
from streettools.shared.status import Status

from ...shared.fault import Fault
from ..called import Called
from . import colours
from .collect import CALLS, KINDS, CabinetNumbers, Readable, Shared, collect
from .tables import FIELDS, packed

HERE = pathlib.Path(__file__).resolve().parent / "parts"
LIBRARY = pathlib.Path("/usr/share/nodejs/d3/dist/d3.min.js")
LICENCE = pathlib.Path("/usr/share/doc/node-d3/copyright")
CODE = (
    "text", "data", "lanes", "view", "panel", "modes", "marks", "overview", "bands", "street", "calls", "rings",
    "pointer", "ruler", "search", "fields", "link", "keys", "main",
)  # fmt: skip
"""The files of the page's code, in the order in which they build on each other."""


class Asked(NamedTuple):
    """The options in addition to the trace: the street's cabinets in order, the ticks of travel between them or None,
    and the seconds from midnight to tick 0, or None; whether breaches are marked."""

    street: list[int]
    travel: list[int] | None
    start: float | None
    judged: bool = False


def part(name: str) -> str:
    """Returns a file of the page's own parts."""
    return (HERE / name).read_text(encoding="utf-8")


def library(path: pathlib.Path) -> str:
    """Returns a file of the library; if it is missing, the fault names the package to install."""
    try:
        return path.read_text(encoding="utf-8")
    except FileNotFoundError:
        raise Fault(f"the drawing library is missing ({path}): apt-get install node-d3", Status.FILE) from None


def shown_pairs(numbers: CabinetNumbers, partners: frozenset[int]) -> list[list[int]]:
    """Returns the coordinated phases from tick to tick; a partner is replaced by the other phase, which it is green
    with."""
    found = []
    for tick, one, other in numbers.pairs:
        found.append([tick, other if one in partners else one, one if other in partners else other])
    return found


def cabinet_head(numbers: CabinetNumbers, names: Called) -> dict[str, Any]:
    """Returns what a page says of a cabinet in addition to its numbers."""
    number = numbers.cabinet.number
    partners = names.partners(number)
    preempts = {it: names.preempt(number, it) for it in range(1, 17)} if names.is_given else {}
    return {
        "number": number,
        "title": names.cabinet(number),
        "phases": {phase: names.phase(number, phase) for phase in range(1, 17) if names.phase(number, phase)},
        "preempts": {it: words for it, words in preempts.items() if words != f"preempt {it}"},
        "partners": sorted(partners),
        "left_out": names.left_out(number),
        "rings": numbers.rings,
        "pairs": shown_pairs(numbers, partners),
    }


def head(
    reader: Readable, cabinets: list[CabinetNumbers], shared: Shared, names: Called, asked: Asked
) -> dict[str, Any]:
    """Returns all of a page that isn't a number of a table."""
    return {
        "title": names.title() or f"A run of {reader.cabinets} cabinet{'s' * (reader.cabinets > 1)}",
        "rounds": reader.rounds,
        "ticks": reader.ticks,
        "start": asked.start,
        "judged": asked.judged,
        "street": asked.street,
        "travel": asked.travel,
        "texts": {field: words.texts() for field, words in shared._asdict().items()} | {"kinds": KINDS, "calls": CALLS},
        "colours": colours.ALL,
        "fields": FIELDS,
        "cabinets": [cabinet_head(it, names) for it in cabinets],
    }


def in_script(code: str) -> str:
    """Returns code that doesn't end the element around it."""
    return code.replace("</script", "<\\/script")


def page(top: dict[str, Any], data: str) -> Iterator[str]:
    """Yields the parts of the file."""
    filled = {
        "TITLE": html.escape(top["title"]),
        "STYLE": part("page.css"),
        "HEAD": json.dumps(top, separators=(",", ":")).replace("<", "\\u003c"),
        "DATA": data,
        "LICENCE": html.escape(library(LICENCE)),
        "LIBRARY": in_script(library(LIBRARY)),
        "CODE": in_script("\n".join(part(f"{name}.js") for name in CODE)),
    }
    for place, text in enumerate(re.split(r"\{\{([A-Z]+)\}\}", part("page.html"))):
        yield filled[text] if place % 2 else text


def write(reader: Readable, names: Called, asked: Asked, path: str) -> None:
    """Reads the trace and writes its page."""
    cabinets, shared = collect(reader)
    reader.finish()
    top = head(reader, cabinets, shared, names, asked)
    top["counts"], data = packed([it.tables for it in cabinets])
    with files.output(path) as out:
        out.writelines(page(top, data))
