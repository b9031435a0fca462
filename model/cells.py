"""The cells of a cabinet's tables: which there are, and what each may hold.

docs/SCENARIO.md, "Cells".
"""

from dataclasses import dataclass
from enum import Enum
from typing import Union

Value = Union[int, bytes]
"""A number, or a list of phases as octets."""

MOST_OCTETS = 16


class Table(Enum):
    """The tables by the words that name them in a cell."""

    PHASE = "phase"
    SEQUENCE = "sequence"
    UNIT = "unit"
    PATTERN = "pattern"
    SPLIT = "split"
    PREEMPT = "preempt"

    __hash__ = object.__hash__


@dataclass(frozen=True)
class Cell:
    """A place in the tables: `row`, for sequences the ring and for splits the phase as `sub`, and the column."""

    table: Table
    row: int
    sub: int
    column: int


@dataclass(frozen=True)
class Numbers:
    """A cell that holds a number from `low` to `high`."""

    low: int
    high: int


@dataclass(frozen=True)
class Octets:
    """A cell that holds a list of at most 16 octets."""


Holds = Union[Numbers, Octets]
BYTE, WORD = Numbers(0, 255), Numbers(0, 65535)

ROWS = {Table.PHASE: 16, Table.SEQUENCE: 16, Table.UNIT: 0, Table.PATTERN: 48, Table.SPLIT: 32, Table.PREEMPT: 8}
SUBS = {Table.SEQUENCE: 2, Table.SPLIT: 16}
COLUMNS: dict[Table, dict[int, Holds]] = {
    Table.PHASE: {**dict.fromkeys(range(2, 20), BYTE), 20: Numbers(1, 6), 21: WORD, 22: BYTE, 23: Octets()},
    Table.SEQUENCE: {3: Octets()},
    Table.UNIT: {
        1: Numbers(1, 4),
        2: Numbers(0, 2550),
        3: Numbers(0, 2550),
        4: Numbers(0, 2550),
        5: WORD,
        6: Numbers(0, 2550),
        7: Numbers(1, 2),
        8: Numbers(1, 2),
    },
    Table.PATTERN: dict.fromkeys(range(2, 6), BYTE),
    Table.SPLIT: {3: BYTE, 4: Numbers(1, 7), 5: Numbers(0, 1)},
    Table.PREEMPT: {
        4: Numbers(0, 600),
        5: WORD,
        **dict.fromkeys(range(6, 11), BYTE),
        11: WORD,
        **dict.fromkeys(range(12, 16), Octets()),
    },
}


class Misfit(Enum):
    """Why a value isn't allowed in a cell."""

    KIND = "kind"
    RANGE = "range"


def holds(cell: Cell) -> Holds | None:
    """Returns what a cell holds; None if the cell doesn't exist."""
    rows = ROWS[cell.table]
    if not (1 <= cell.row <= rows if rows else cell.row == 0):
        return None
    if not (1 <= cell.sub <= SUBS[cell.table] if cell.table in SUBS else cell.sub == 0):
        return None
    return COLUMNS[cell.table].get(cell.column)


def misfit(cell: Cell, value: Value) -> Misfit | None:
    """Returns why a value isn't allowed in an existing cell; None if it is allowed."""
    what = holds(cell)
    if isinstance(what, Octets):
        if not isinstance(value, bytes):
            return Misfit.KIND
        return Misfit.RANGE if len(value) > MOST_OCTETS else None
    if isinstance(value, bytes):
        return Misfit.KIND
    return None if what.low <= value <= what.high else Misfit.RANGE
