"""Which objects a Set may name, and what it may put into each: name, access, type and range.

The cells of tables are those of `streettools.shared.cells`, the one table that all tools use.
"""

import functools
from typing import NamedTuple

from ...shared import oids
from ...shared.ber import COUNTER, GAUGE, INTEGER, NAME, OCTETS, Arcs, Field, number_of, unsigned_of
from ...shared.cells import Lists, Numbers, kinds
from ...shared.oids import ENTRIES, OWN, SEQUENCE_ENTRY, STATUS_GROUP, UNIT, object_of
from .pdus import INCONSISTENT_VALUE, NO_CREATION, NOT_WRITABLE, WRONG_LENGTH, WRONG_TYPE, WRONG_VALUE


class Names(NamedTuple):
    """Object identifiers, by the octets of the longest: 32 of them have room in a message. Those of all objects are
    shorter."""

    longest: int = 32


class Seconds(NamedTuple):
    """Seconds since 1970 of 32 bits: a Counter, which net-snmp sends as a Gauge, or an INTEGER."""


Kind = Numbers | Lists | Names | Seconds
WHOLE_TIME = (INTEGER, COUNTER, GAUGE)
NUMBER = Numbers(1, (1 << 31) - 1)
EIGHT = 8
"""The octets of a priority request."""
TABLES = [*ENTRIES.values(), SEQUENCE_ENTRY]
INDEXES = {"phase": 1, "pattern": 1, "split": 2, "preempt": 1}
ORDERS: dict[Arcs, Kind] = {
    oids.CONTROL: Numbers(0, 255), oids.CLOCK: Numbers(0, 863_999), oids.REQUEST: Lists(EIGHT),
    oids.CANCEL: Numbers(1, 10), oids.BEGIN: NUMBER, oids.ID: NUMBER, oids.PART: Numbers(1, 60_000),
    oids.TOTAL: Numbers(0, 60_000), oids.FINISH: Numbers(1, 1),
}  # fmt: skip
"""What the profile's objects take that aren't cells."""


STRUCTURE = {ENTRIES["phase"] + (column,) for column in (20, 21, 22, 23)} | {SEQUENCE_ENTRY + (3,)}
"""The columns that only a transaction changes: start-up, options, rings, partners and orders of phases."""


@functools.cache
def cells() -> dict[Arcs, Kind]:
    """Returns what each cell of the tables takes, by its object."""
    return {object_of(cell): kind for cell, kind in kinds().items()}


def is_cell(name: Arcs) -> bool:
    """Tells whether a name is that of a cell of the tables."""
    return name in cells()


def is_of_a_table(name: Arcs) -> bool:
    """Tells whether a name is one of the tables that downloads change, whether or not there is such a cell."""
    return name in cells() or any(name[: len(table)] == table for table in TABLES)


def needs_transaction(name: Arcs) -> bool:
    """Tells whether a cell is one that only a transaction changes."""
    return any(name[: len(column)] == column for column in STRUCTURE)


def fault_of(name: Arcs, value: Field) -> int:
    """Returns the status of a cell of the tables that can't be set to a value, 0 if it can."""
    kind = cells().get(name)
    if kind is None:
        return NO_CREATION if has_type(name, cell_columns()) else NOT_WRITABLE
    return misfit(kind, value)


def is_of_a_download(names: list[Arcs]) -> bool:
    """Tells whether a Set of some objects is one of the profile's own downloads."""
    return bool(names) and names[0] in (oids.BEGIN, oids.ID)


def misfit(kind: Kind, value: Field) -> int:
    """Returns the status of a value that an object doesn't take, 0 for one that it takes."""
    match kind:
        case Numbers(least, most):
            return WRONG_TYPE if value.tag != INTEGER else 0 if least <= number_in(value) <= most else WRONG_VALUE
        case Lists(longest):
            return WRONG_TYPE if value.tag != OCTETS else 0 if len(value.content) <= longest else WRONG_LENGTH
        case Names(longest):
            return WRONG_TYPE if value.tag != NAME else 0 if len(value.content) <= longest else WRONG_LENGTH
        case Seconds():
            return WRONG_TYPE if value.tag not in WHOLE_TIME else 0 if number_in(value) >= 0 else WRONG_VALUE


def number_in(value: Field) -> int:
    """Returns the number that an INTEGER, a Counter or a Gauge is."""
    return number_of(value.content) if value.tag == INTEGER else unsigned_of(value.content)


@functools.cache
def columns() -> set[Arcs]:
    """Returns the object types that the profile has for reading: columns of tables, and scalars without their 0."""
    found = {name[:-1] for name in UNIT.values()}
    for table, entry in ENTRIES.items():
        found |= {entry + (column,) for column in range(1, INDEXES[table] + 1)}
        found |= {entry + (cell[-1],) for cell in kinds() if cell[0] == table}
    found |= {SEQUENCE_ENTRY + (column,) for column in (1, 2, 3)}
    found |= {STATUS_GROUP + (column,) for column in range(1, 11)}
    scalars = (oids.STATUS, oids.CONTROL, oids.CLOCK, oids.COUNTER_OF_CYCLE, oids.TARGET, oids.MODE, oids.STATE,
               oids.OUTCOME, oids.DETAIL, oids.ROW, oids.VERSION)  # fmt: skip
    return found | {name[:-1] for name in scalars} | {OWN + (4, 3, 1)}


def has_type(name: Arcs, types: set[Arcs]) -> bool:
    """Tells whether a name is that of an instance of one of some object types, whether or not there is the instance."""
    return any(name[:length] in types for length in range(len(name) - 1, 7, -1))


def of_the_cabinet(status: int, name: Arcs, value: Field) -> int:
    """Returns the status of version 2c for one that the cabinet has answered to a Set of an object in version 1."""
    if status == 3:
        kind = ORDERS.get(name)
        return (misfit(kind, value) if kind else 0) or INCONSISTENT_VALUE
    if status == 2:
        if is_cell(name):
            return INCONSISTENT_VALUE
        settable = any(name[: len(it) - 1] == it[:-1] for it in ORDERS) or has_type(name, cell_columns())
        return NO_CREATION if settable and name not in ORDERS else NOT_WRITABLE
    return status


@functools.cache
def cell_columns() -> set[Arcs]:
    """Returns the object types of cells."""
    of_tables = {name[: len(entry) + 1] for entry in TABLES for name in cells() if name[: len(entry)] == entry}
    return of_tables | {name[:-1] for name in UNIT.values()}
