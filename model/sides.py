"""Which phases may be on together, and what sequences order.

docs/DEFINITIONS.md, "Tables": `are_concurrent`, `are_incompatible`, `are_of_one_side`, `ring_phases`, `sides`. Only
enabled phases count.
"""

from model.cells import Table
from model.tables import Tables, enabled, of_tables, rows
from model.words import PHASES, RINGS


@of_tables
def concurrent(tables: Tables) -> dict[int, frozenset[int]]:
    """Returns for each phase those that may be on beside it: the list of one names the other."""
    used, row = enabled(tables), rows(tables)
    return {
        p: frozenset(q for q in used if q != p and (q in row[p].listed or p in row[q].listed))
        if p in used
        else frozenset()
        for p in PHASES
    }


@of_tables
def incompatible(tables: Tables) -> dict[int, frozenset[int]]:
    """Returns for each enabled phase all others that aren't concurrent with it."""
    used = enabled(tables)
    return {p: used - {p} - concurrent(tables)[p] if p in used else frozenset() for p in PHASES}


@of_tables
def side(tables: Tables, p: int) -> frozenset[int]:
    """Returns the side of the barrier of a phase: itself, those concurrent with it, those that share one of these
    with it."""
    beside = concurrent(tables)
    return frozenset(q for q in enabled(tables) if q == p or q in beside[p] or beside[q] & beside[p])


@of_tables
def sequence(tables: Tables, number: int, ring: int) -> bytes:
    """Returns the phases of a ring in the order of a sequence."""
    return tables.octets(Table.SEQUENCE, number, 3, sub=ring)


@of_tables
def sides_in_order(tables: Tables, number: int) -> list[frozenset[int]]:
    """Returns the sides in the order of a sequence."""
    order: list[frozenset[int]] = []
    for p in sequence(tables, number, RINGS[0]):
        if side(tables, p) not in order:
            order.append(side(tables, p))
    return order


@of_tables
def ring_phases(tables: Tables, number: int, ring: int, of: frozenset[int]) -> list[int]:
    """Returns the phases of a ring in a side, in the order of a sequence."""
    return [p for p in sequence(tables, number, ring) if p in of]
