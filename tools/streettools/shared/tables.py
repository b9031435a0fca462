"""The tables of a cabinet, as its scenario tells them: a standard table, its cells, and the downloads that were
accepted.

Tables, rows and columns are those of docs/SCENARIO.md.
"""

from collections.abc import Iterable
from typing import Any

Cell = tuple[Any, ...]
"""A cell: a table's name, the numbers of the row, the column."""
Value = Any
"""A cell's value: a number, or a tuple of phases where the cell is a list."""

LEFT = {2: 0, 3: 0, 4: 5, 5: 20, 6: 20, 8: 35, 9: 10, 10: 20, 20: 2, 21: 1}
MAIN = {2: 7, 3: 12, 4: 10, 5: 30, 6: 40, 8: 40, 9: 15, 10: 20, 20: 4, 21: 1089}
SIDE = {**MAIN, 20: 2, 21: 1025}
LISTS = {1: (5, 6), 2: (5, 6), 3: (7, 8), 4: (7, 8), 5: (1, 2), 6: (1, 2), 7: (3, 4), 8: (3, 4)}
UNIT = {1: 2, 2: 100, 3: 50, 4: 30, 5: 0, 6: 60, 7: 1, 8: 1}
ALL = range(1, 17)


def standard(base: str) -> dict[Cell, Value]:
    """Returns the cells of std8 or max8 that aren't 0 or empty."""
    cells: dict[Cell, Value] = {("unit", column): value for column, value in UNIT.items()}
    for phase, concurrent in LISTS.items():
        row = LEFT if phase % 2 else MAIN if phase in (2, 6) else SIDE
        cells.update({("phase", phase, column): value for column, value in row.items()})
        cells["phase", phase, 22] = 1 if phase < 5 else 2
        cells["phase", phase, 23] = concurrent
        cells["split", 1, phase, 3] = 15 if phase % 2 else 30
        cells["split", 1, phase, 5] = int(phase in (2, 6))
        if base == "max8":
            cells["phase", phase, 21] = 129 if phase % 2 else 1153
    cells["sequence", 1, 1], cells["sequence", 1, 2] = (1, 2, 3, 4), (5, 6, 7, 8)
    cells.update({("pattern", 1, 2): 90, ("pattern", 1, 4): 1, ("pattern", 1, 5): 1})
    return cells


class Tables:
    """A cabinet's tables. Seconds, tenths and ticks are those of the columns."""

    def __init__(self, base: str = "std8", cells: Iterable[list[Any]] = ()) -> None:
        self.cells = standard(base)
        self.put(cells)

    def put(self, cells: Iterable[list[Any]]) -> None:
        """Puts cells in order: of two for one cell the last counts."""
        for *cell, value in cells:
            self.cells[tuple(cell)] = tuple(bytes.fromhex(value)) if isinstance(value, str) else value

    def copy(self) -> "Tables":
        """Returns tables with the same cells."""
        tables = Tables()
        tables.cells = dict(self.cells)
        return tables

    def phase(self, phase: int, column: int) -> Any:
        """Returns a number of the phase table; 23 is the list of concurrent phases."""
        return self.cells.get(("phase", phase, column), () if column == 23 else 0)

    def option(self, phase: int, bit: int) -> bool:
        """Returns whether a phase has an option: 1 enabled, 64 minimum recall, 128 maximum recall."""
        return bool(self.phase(phase, 21) & bit)

    def enabled(self) -> list[int]:
        """Returns the enabled phases, in rising order."""
        return [phase for phase in ALL if self.option(phase, 1)]

    def sequence(self, number: int, ring: int) -> Any:
        """Returns the phases of a ring in a sequence's order."""
        return self.cells.get(("sequence", number, ring), ())

    def pattern(self, number: int, column: int) -> Any:
        """Returns a number of a pattern: 2 cycle and 3 offset in seconds, 4 split, 5 sequence."""
        return self.cells.get(("pattern", number, column), 0)

    def patterns(self) -> list[int]:
        """Returns the numbers of the patterns that are defined: those with a cycle."""
        return [number for number in range(1, 49) if self.pattern(number, 2) > 0]

    def split(self, number: int, phase: int, column: int) -> Any:
        """Returns a number of a split: 3 time in seconds, 4 mode, 5 whether the phase is coordinated."""
        return self.cells.get(("split", number, phase, column), 2 if column == 4 else 0)

    def unit(self, column: int) -> Any:
        """Returns a number of the unit, as the correction mode (1) or the force mode (7)."""
        return self.cells[("unit", column)]

    def clearance(self, phase: int) -> int:
        """Returns yellow change and red clearance together, in ticks."""
        return int(self.phase(phase, 8) + self.phase(phase, 9))

    def side(self, phase: int) -> set[int]:
        """Returns the phases of a phase's side of the barrier: those concurrent with it, and those that share one with
        it."""
        enabled = set(self.enabled())
        near = enabled & set(self.phase(phase, 23))
        return {it for it in enabled if it == phase or it in near or near & set(self.phase(it, 23))}
