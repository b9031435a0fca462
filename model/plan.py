"""A pattern laid out over its cycle: slots, force points, window.

docs/DEFINITIONS.md, "Slots and rules". Times are ticks; force points and the window count from local zero, the start
of the later of the two coordinated slots.
"""

from dataclasses import dataclass

from model.cells import Table
from model.sides import sequence, side
from model.tables import Tables, enabled, of_tables, rows
from model.words import PHASES, RINGS

OMITTED_MODE = 7
PATTERNS = range(1, 49)


@dataclass(frozen=True)
class Pattern:
    """The row of a pattern, its times in ticks."""

    cycle: int
    offset: int
    split: int
    sequence: int


@of_tables
def pattern(tables: Tables, number: int) -> Pattern:
    """Returns the row of a pattern."""

    def tell(column: int) -> int:
        return tables.number(Table.PATTERN, number, column)

    return Pattern(10 * tell(2), 10 * tell(3), tell(4), tell(5))


def is_defined(tables: Tables, number: int) -> bool:
    """Tells whether a number is that of a pattern with a cycle."""
    return number in PATTERNS and pattern(tables, number).cycle > 0


@of_tables
def split_mode(tables: Tables, number: int, p: int) -> int:
    """Returns what the split of a pattern says of a phase beside its time: recalls, or that it is left out."""
    return tables.number(Table.SPLIT, pattern(tables, number).split, 4, sub=p)


@of_tables
def split_time(tables: Tables, number: int, p: int) -> int:
    """Returns the time that the split of a pattern gives to a phase, in ticks."""
    return 10 * tables.number(Table.SPLIT, pattern(tables, number).split, 3, sub=p)


@of_tables
def coordinated(tables: Tables, number: int) -> frozenset[int]:
    """Returns the phases that a pattern holds onto its offset."""
    split = pattern(tables, number).split
    return frozenset(p for p in enabled(tables) if tables.number(Table.SPLIT, split, 5, sub=p) == 1)


@of_tables
def omitted(tables: Tables, number: int) -> frozenset[int]:
    """Returns the phases that a pattern leaves out."""
    return frozenset(p for p in enabled(tables) if split_mode(tables, number, p) == OMITTED_MODE)


@of_tables
def slot_starts(tables: Tables, number: int) -> dict[int, int]:
    """Returns where the slots start: those of a ring stand one after another, in the order of the sequence."""
    starts: dict[int, int] = {}
    for ring in RINGS:
        start = 0
        for p in sequence(tables, pattern(tables, number).sequence, ring):
            starts[p] = start
            start += split_time(tables, number, p)
    return starts


@of_tables
def layout_force_point(tables: Tables, number: int, p: int) -> int:
    """Returns the last moment of a slot, from the start of the sequence, that leaves room for the clearance of the
    phase in its slot and for the greatest clearance of its side before that ends."""

    def slot_end(q: int) -> int:
        return slot_starts(tables, number)[q] + split_time(tables, number, q)

    beside, row = side(tables, p), rows(tables)
    side_end = max(slot_end(q) for q in beside)
    return min(slot_end(p) - row[p].clearance, side_end - max(row[q].clearance for q in beside))


@of_tables
def zero_point(tables: Tables, number: int) -> int:
    """Returns where local zero stands, from the start of the sequence."""
    return max(slot_starts(tables, number)[p] for p in coordinated(tables, number))


@dataclass(frozen=True)
class Plan:
    """A pattern as a tick reads it. `shift` is how far from local zero the moment stands that the offset sets in
    time."""

    cycle: int
    offset: int
    force: dict[int, int]
    window: int
    coordinated: frozenset[int]
    omitted: frozenset[int]
    is_floating: bool
    shift: int


@of_tables
def plan(tables: Tables, number: int) -> Plan:
    """Returns the plan of a defined pattern of consistent tables."""
    row, zero = pattern(tables, number), zero_point(tables, number)
    held = coordinated(tables, number)
    force = {p: (layout_force_point(tables, number, p) - zero) % row.cycle for p in PHASES if p in enabled(tables)}
    window = min(force[p] for p in held)
    return Plan(
        cycle=row.cycle,
        offset=row.offset,
        force=force,
        window=window,
        coordinated=held,
        omitted=omitted(tables, number),
        is_floating=tables.unit(7) == 2,
        shift=window if tables.unit(8) == 2 else 0,
    )
