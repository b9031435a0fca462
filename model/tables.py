"""A cabinet's tables, by cells and by the rows that a tick reads; the standard tables.

docs/SCENARIO.md, "Cells" and "The standard tables". Times of rows are in ticks. Tables never change: a download makes
new ones. What depends only on tables (rows, sides, plans) is worked out once for each and kept in `memo`.
"""

import functools
from collections.abc import Callable, Iterable
from dataclasses import dataclass
from typing import Any

from model.cells import Cell, Octets, Table, Value, holds
from model.words import PHASES

ENABLED, NON_LOCK, MINIMUM_RECALL, MAXIMUM_RECALL = 1, 32, 64, 128
PEDESTRIAN_RECALL, DUAL_ENTRY = 256, 1024


class Tables:
    """The values of all cells: those that were put, and for all others the defaults of a table."""

    def __init__(self, values: dict[Cell, Value]) -> None:
        self.values = values
        self.memo: dict[Any, Any] = {}

    def at(self, cell: Cell) -> Value:
        """Returns the value of a cell: 0 or empty if nothing was put, start-up 1, split mode 2."""
        value = self.values.get(cell)
        if value is not None:
            return value
        if isinstance(holds(cell), Octets):
            return b""
        if cell.table is Table.PHASE and cell.column == 20:
            return 1
        return 2 if cell.table is Table.SPLIT and cell.column == 4 else 0

    def with_cells(self, cells: Iterable[tuple[Cell, Value]]) -> "Tables":
        """Returns the tables with cells put in order: of two for one cell the last counts."""
        return Tables({**self.values, **dict(cells)})

    def number(self, table: Table, row: int, column: int, sub: int = 0) -> int:
        """Returns the number in a cell."""
        return self.at(Cell(table, row, sub, column))

    def octets(self, table: Table, row: int, column: int, sub: int = 0) -> bytes:
        """Returns the list of phases in a cell."""
        return self.at(Cell(table, row, sub, column))

    def unit(self, column: int) -> int:
        """Returns a number of the whole unit."""
        return self.number(Table.UNIT, 0, column)


def of_tables(work: Callable) -> Callable:
    """Makes a function of tables work out each answer once for each tables."""

    @functools.wraps(work)
    def kept(tables: Tables, *rest: Any) -> Any:
        key = (work, rest)
        if key not in tables.memo:
            tables.memo[key] = work(tables, *rest)
        return tables.memo[key]

    return kept


@dataclass(frozen=True)
class Row:
    """The row of a phase, its times in ticks."""

    walk: int
    ped_clear: int
    least_green: int
    passage: int
    maximum: int
    yellow: int
    red_clear: int
    red_revert: int
    startup: int
    options: int
    ring: int
    listed: bytes

    @property
    def is_enabled(self) -> bool:
        """Tells whether the phase is in use."""
        return bool(self.options & ENABLED)

    @property
    def clearance(self) -> int:
        """Returns yellow change and red clearance together."""
        return self.yellow + self.red_clear

    @property
    def least_service(self) -> int:
        """Returns the minimum green, or walk and pedestrian clearance if there is a walk and they take longer."""
        return max(self.least_green, self.walk + self.ped_clear) if self.walk else self.least_green


@of_tables
def rows(tables: Tables) -> dict[int, Row]:
    """Returns the rows of all phases."""

    def row(p: int) -> Row:
        def tell(column: int) -> int:
            return tables.number(Table.PHASE, p, column)

        return Row(
            walk=10 * tell(2),
            ped_clear=10 * tell(3),
            least_green=max(1, 10 * tell(4)),
            passage=max(1, tell(5)),
            maximum=10 * tell(6),
            yellow=tell(8),
            red_clear=tell(9),
            red_revert=tell(10),
            startup=tell(20),
            options=tell(21),
            ring=tell(22),
            listed=tables.octets(Table.PHASE, p, 23),
        )

    return {p: row(p) for p in PHASES}


@of_tables
def enabled(tables: Tables) -> frozenset[int]:
    """Returns the phases in use."""
    return frozenset(p for p in PHASES if rows(tables)[p].is_enabled)


@of_tables
def with_option(tables: Tables, bit: int) -> frozenset[int]:
    """Returns the phases in use that have an option."""
    return frozenset(p for p in enabled(tables) if rows(tables)[p].options & bit)


def standard(left: int, main: int, side: int) -> Tables:
    """Returns a standard table by the options of left turns, main street and side street."""
    values: dict[Cell, Value] = {}

    def put(table: Table, row: int, column: int, value: Value, sub: int = 0) -> None:
        values[Cell(table, row, sub, column)] = value

    for p in range(1, 9):
        turn = p % 2 == 1
        times = {4: 5, 5: 20, 6: 20, 8: 35, 9: 10} if turn else {2: 7, 3: 12, 4: 10, 5: 30, 6: 40, 8: 40, 9: 15}
        options = left if turn else main if p in (2, 6) else side
        fellows = {1: "0506", 3: "0708", 5: "0102", 7: "0304"}[p if turn else p - 1]
        columns = {**times, 10: 20, 20: 4 if p in (2, 6) else 2, 21: options, 22: 1 if p < 5 else 2}
        for column, value in columns.items():
            put(Table.PHASE, p, column, value)
        put(Table.PHASE, p, 23, bytes.fromhex(fellows))
        put(Table.SPLIT, 1, 3, 15 if turn else 30, sub=p)
        put(Table.SPLIT, 1, 5, 1 if p in (2, 6) else 0, sub=p)
    for ring, order in ((1, "01020304"), (2, "05060708")):
        put(Table.SEQUENCE, 1, 3, bytes.fromhex(order), sub=ring)
    for column, value in {2: 90, 3: 0, 4: 1, 5: 1}.items():
        put(Table.PATTERN, 1, column, value)
    for column, value in {1: 2, 2: 100, 3: 50, 4: 30, 5: 0, 6: 60, 7: 1, 8: 1}.items():
        put(Table.UNIT, 0, column, value)
    return Tables(values)


BASES = {"std8": standard(1, 1089, 1025), "max8": standard(129, 1153, 1153)}
