"""The objects of a cabinet's agent: their names, and the order in which GetNext goes through them.

mibs/ARTERIAL-PROFILE-MIB names each; docs/SNMP-CONFORMANCE.md. A name is a tuple of arcs; the readable ones are in one
list in lexicographic order.
"""

import bisect
from dataclasses import dataclass
from enum import Enum
from typing import Union

from model.cells import COLUMNS, ROWS, SUBS, Cell, Table

Oid = tuple[int, ...]
ASC: Oid = (1, 3, 6, 1, 4, 1, 1206, 4, 2, 1)
OWN: Oid = (1, 3, 6, 1, 4, 1, 32473, 1)


class Scalar(Enum):
    """The objects that are neither cells nor rows of groups."""

    PATTERN_STATUS = ASC + (4, 10, 0)
    PATTERN_CONTROL = ASC + (4, 14, 0)
    STAGE_STATE = OWN + (1, 1, 0)
    BEGIN = OWN + (1, 2, 0)
    ID = OWN + (1, 3, 0)
    PART = OWN + (1, 4, 0)
    TOTAL = OWN + (1, 5, 0)
    FINISH = OWN + (1, 6, 0)
    OUTCOME = OWN + (1, 7, 0)
    OUTCOME_RULE = OWN + (1, 8, 0)
    OUTCOME_ROW = OWN + (1, 9, 0)
    VERSION = OWN + (1, 10, 0)
    CLOCK = OWN + (2, 1, 0)
    COUNTER = OWN + (2, 2, 0)
    TARGET = OWN + (2, 3, 0)
    MODE_CODE = OWN + (2, 4, 0)
    REQUEST = OWN + (4, 1, 0)
    CANCEL = OWN + (4, 2, 0)


WRITE_ONLY = frozenset(
    (Scalar.BEGIN, Scalar.ID, Scalar.PART, Scalar.TOTAL, Scalar.FINISH, Scalar.REQUEST, Scalar.CANCEL)
)


class Group(Enum):
    """The columns of a group of eight phases, by their numbers."""

    REDS = 2
    YELLOWS = 3
    GREENS = 4
    DONT_WALKS = 5
    PED_CLEARS = 6
    WALKS = 7
    VEH_CALLS = 8
    PED_CALLS = 9
    PHASE_ONS = 10


@dataclass(frozen=True)
class Index:
    """An index column: it reads as its own number."""

    value: int


@dataclass(frozen=True)
class GroupName:
    """A column of a group."""

    column: Group
    group: int


@dataclass(frozen=True)
class RequestState:
    """The state of a priority request."""

    number: int


Name = Union[Scalar, Cell, Index, GroupName, RequestState]

ENTRIES: dict[Table, Oid] = {
    Table.PHASE: ASC + (1, 2, 1),
    Table.PATTERN: ASC + (4, 7, 1),
    Table.SPLIT: ASC + (4, 9, 1),
    Table.PREEMPT: ASC + (6, 2, 1),
    Table.SEQUENCE: ASC + (7, 3, 1),
}
UNITS: dict[int, Oid] = {1: ASC + (4, 2, 0), **{n: OWN + (3, n - 1, 0) for n in range(2, 9)}}


def oid_of_cell(cell: Cell) -> Oid:
    """Returns the name of a cell."""
    if cell.table is Table.UNIT:
        return UNITS[cell.column]
    rows = (cell.row, cell.sub) if cell.table in SUBS else (cell.row,)
    return ENTRIES[cell.table] + (cell.column, *rows)


def table_names() -> dict[Oid, Name]:
    """Returns all names of tables: index columns and cells."""
    names: dict[Oid, Name] = {oid: Cell(Table.UNIT, 0, 0, n) for n, oid in UNITS.items()}
    for table, entry in ENTRIES.items():
        subs = range(1, SUBS[table] + 1) if table in SUBS else (0,)
        for row in range(1, ROWS[table] + 1):
            for sub in subs:
                rows = (row, sub) if table in SUBS else (row,)
                names.update({entry + (column, *rows): Index(number) for column, number in enumerate(rows, 1)})
                cells = (Cell(table, row, sub, column) for column in COLUMNS[table])
                names.update({oid_of_cell(cell): cell for cell in cells})
    return names


def all_names() -> dict[Oid, Name]:
    """Returns all names."""
    names = table_names()
    names.update({scalar.value: scalar for scalar in Scalar})
    for group in (1, 2):
        names[ASC + (1, 4, 1, 1, group)] = Index(group)
        names.update({ASC + (1, 4, 1, column.value, group): GroupName(column, group) for column in Group})
    names.update({OWN + (4, 3, 1, k): RequestState(k) for k in range(1, 11)})
    return names


NAMES = all_names()
READABLE = sorted(oid for oid, name in NAMES.items() if name not in WRITE_ONLY)


def is_readable(oid: Oid) -> bool:
    """Tells whether a name is that of an object that can be read."""
    return oid in NAMES and NAMES[oid] not in WRITE_ONLY


def next_oid(oid: Oid) -> Oid | None:
    """Returns the first readable name that comes after a name; None if there is none."""
    place = bisect.bisect_right(READABLE, oid)
    return READABLE[place] if place < len(READABLE) else None
