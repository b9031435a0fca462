"""Rows of whole numbers, kept by columns and packed for a page.

A column is written in planes: the lowest byte of each number first, then the next byte of each, four in all. The high
planes are mostly zeros, so that the whole deflates well. Ticks are written as the steps between them.
"""

import base64
import operator
import zlib
from array import array
from collections.abc import Iterator

FIELDS = {
    "frames": ("tick", "shown", "mode", "counter", "target", "version"),
    "zeros": ("tick", "pattern", "pickup", "told", "error", "met"),
    "barriers": ("tick",),
    "greens": ("tick", "phase", "ending"),
    "calls": ("tick", "kind", "number", "on"),
    "marks": ("tick", "kind", "words"),
}
"""The tables of a cabinet and the columns of each. Rows are in the order of their ticks."""


class Table:
    """The rows of one kind that a cabinet has."""

    def __init__(self, fields: tuple[str, ...]):
        self.columns = {field: array("q") for field in fields}
        self.append = [column.append for column in self.columns.values()]

    def add(self, *row: int) -> None:
        """Adds a row."""
        for append, value in zip(self.append, row):
            append(value)

    def __len__(self) -> int:
        return len(self.columns["tick"])


class Words:
    """Texts by number: each is kept once."""

    def __init__(self) -> None:
        self.places: dict[str, int] = {}

    def number(self, text: str) -> int:
        """Returns the number of a text."""
        return self.places.setdefault(text, len(self.places))

    def texts(self) -> list[str]:
        """Returns the texts in the order of their numbers."""
        return list(self.places)


def steps(ticks: array) -> Iterator[int]:
    """Yields the steps between ticks, the first from 0."""
    yield from ticks[:1]
    yield from map(operator.sub, ticks[1:], ticks)


def planes(numbers: array) -> bytes:
    """Returns numbers as four planes of bytes."""
    octets = array("I", [number & 0xFFFFFFFF for number in numbers]).tobytes()
    return b"".join(octets[place::4] for place in range(4))


def packed(cabinets: list[dict[str, Table]]) -> tuple[dict[str, list[int]], str]:
    """Returns how many rows each cabinet has in each table, and all columns: the columns of all cabinets one after
    another, deflated, as base64."""
    counts = {name: [len(tables[name]) for tables in cabinets] for name in FIELDS}
    squeezer, parts = zlib.compressobj(9), []
    for name, fields in FIELDS.items():
        for field in fields:
            whole = array("q")
            for tables in cabinets:
                column = tables[name].columns[field]
                whole.extend(array("q", steps(column)) if field == "tick" else column)
            parts.append(squeezer.compress(planes(whole)))
    parts.append(squeezer.flush())
    return counts, base64.b64encode(b"".join(parts)).decode("ascii")
