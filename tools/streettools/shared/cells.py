"""Cells of a cabinet's tables: which exist, what is allowed in each, and how tables differ.

A cell is a tuple, as ("phase", 2, 4): a table's name, the numbers of the row, the column. Lists of phases are tuples of
numbers. The cells and their ranges are those of docs/SCENARIO.md."""

import functools
from collections.abc import Iterable
from typing import Any, NamedTuple

from .tables import ALL, Cell, Tables, Value

SEQUENCES, PATTERNS, SPLITS, PREEMPTS, RINGS = range(1, 17), range(1, 49), range(1, 33), range(1, 9), (1, 2)
LONGEST_LIST = 16


class Numbers(NamedTuple):
    """A range of whole numbers."""

    least: int
    most: int


class Lists(NamedTuple):
    """Lists of phases, as octets."""

    longest: int = LONGEST_LIST


BYTE, WORD, TICKS = Numbers(0, 255), Numbers(0, 65535), Numbers(0, 2550)
PHASE: dict[int, "Numbers | Lists"] = dict.fromkeys(range(2, 23), BYTE)
PHASE |= {20: Numbers(1, 6), 21: WORD, 23: Lists()}
UNIT = {1: Numbers(1, 4), 2: TICKS, 3: TICKS, 4: TICKS, 5: WORD, 6: TICKS, 7: Numbers(1, 2), 8: Numbers(1, 2)}
PATTERN = {column: BYTE for column in (2, 3, 4, 5)}
SPLIT = {3: BYTE, 4: Numbers(1, 7), 5: Numbers(0, 1)}
PREEMPT: dict[int, "Numbers | Lists"] = {
    4: Numbers(0, 600), 5: WORD, **{column: BYTE for column in range(6, 11)}, 11: WORD,
    **{column: Lists() for column in range(12, 16)},
}  # fmt: skip


@functools.cache
def kinds() -> dict[Cell, Numbers | Lists]:
    """Returns each cell that exists, in the order of the tables, with what is allowed in it."""
    found: dict[Cell, Numbers | Lists] = {}
    for phase in ALL:
        found |= {("phase", phase, column): kind for column, kind in PHASE.items()}
    found |= {("sequence", number, ring): Lists() for number in SEQUENCES for ring in RINGS}
    found |= {("unit", column): kind for column, kind in UNIT.items()}
    found |= {("pattern", number, column): kind for number in PATTERNS for column, kind in PATTERN.items()}
    found |= {
        ("split", number, phase, column): kind for number in SPLITS for phase in ALL for column, kind in SPLIT.items()
    }
    found |= {("preempt", number, column): kind for number in PREEMPTS for column, kind in PREEMPT.items()}
    return found


@functools.cache
def places() -> dict[Cell, int]:
    """Returns the place of each cell in the order of the tables."""
    return {cell: place for place, cell in enumerate(kinds())}


@functools.cache
def unset(cell: Cell) -> Value:
    """Returns the value of a cell that a standard table doesn't name."""
    match cell:
        case ("phase", _, 20) | ("unit", 7 | 8):
            return 1
        case ("split", _, _, 4):
            return 2
    return () if isinstance(kinds()[cell], Lists) else 0


def value(tables: Tables, cell: Cell) -> Value:
    """Returns the value of a cell."""
    found = tables.cells.get(cell)
    return unset(cell) if found is None else found


def put(tables: Tables, cell: Cell, new: Value) -> None:
    """Puts a value into a cell."""
    tables.cells[cell] = new


def differing(old: Tables, new: Tables) -> list[Cell]:
    """Returns the cells in which two tables differ, in the order of the tables."""
    named = old.cells.keys() | new.cells.keys()
    return sorted((cell for cell in named if value(old, cell) != value(new, cell)), key=places().__getitem__)


def written(cell: Cell, new: Value) -> list[Any]:
    """Returns a cell and its value as a scenario has them."""
    return [*cell, bytes(new).hex() if isinstance(new, tuple) else new]


def cells_between(old: Tables, new: Tables) -> list[list[Any]]:
    """Returns the cells, as a scenario has them, that turn the old tables into the new ones."""
    return [written(cell, value(new, cell)) for cell in differing(old, new)]


def tables_of(cabinet: dict[str, Any]) -> Tables:
    """Returns the tables that a scenario's cabinet opens with."""
    return Tables(cabinet.get("base", "std8"), cabinet.get("cells", ()))


def with_cells(tables: Tables, cells: Iterable[list[Any]]) -> Tables:
    """Returns tables with cells put in."""
    new = tables.copy()
    new.put(cells)
    return new
