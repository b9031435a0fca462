"""The rules 13 to 19 of tables: correction, and defined patterns. Each is tested only if all rules before it hold.

docs/SCENARIO.md, "The rules of tables".
"""

from model import plan
from model.counter import ADD_ONLY, DWELL, correction
from model.sides import concurrent, sequence, side
from model.tables import Tables, enabled, rows
from model.words import RINGS


def can_correct(tables: Tables, _row: int) -> bool:
    """Rule 13: the correction mode is 2, 3 or 4, and the limits of correction are 1 or more."""
    may = correction(tables)
    return DWELL <= may.mode <= ADD_ONLY and min(may.dwell, may.add, may.skip) >= 1


def has_split(tables: Tables, number: int) -> bool:
    """Rule 14: the split is 1 to 32, and the sequence 1 to 16 and not empty in both rings."""
    row = plan.pattern(tables, number)
    return (
        1 <= row.split <= 32 and 1 <= row.sequence <= 16 and any(sequence(tables, row.sequence, ring) for ring in RINGS)
    )


def offset_fits(tables: Tables, number: int) -> bool:
    """Rule 15: the offset is less than the cycle."""
    row = plan.pattern(tables, number)
    return row.offset < row.cycle


def coordinates_pair(tables: Tables, number: int) -> bool:
    """Rule 16: the split has one coordinated phase in each ring, the two are concurrent, and neither is omitted."""
    held = plan.coordinated(tables, number)
    if sorted(rows(tables)[p].ring for p in held) != list(RINGS) or held & plan.omitted(tables, number):
        return False
    p, q = held
    return q in concurrent(tables)[p]


def sums_agree(tables: Tables, number: int) -> bool:
    """Rule 17: the times of each ring add up to the cycle, and on each side the sums of both rings are equal."""

    def total(ring: int, of: frozenset[int]) -> int:
        return sum(plan.split_time(tables, number, p) for p in of if rows(tables)[p].ring == ring)

    used = enabled(tables)
    whole = all(total(ring, used) == plan.pattern(tables, number).cycle for ring in RINGS)
    return whole and all(total(1, of) == total(2, of) for of in {side(tables, p) for p in used})


def services_fit(tables: Tables, number: int) -> bool:
    """Rule 18: a phase that isn't coordinated or omitted has time in its slot for its minimum service, with room for
    the clearances."""
    free = enabled(tables) - plan.coordinated(tables, number) - plan.omitted(tables, number)
    starts = plan.slot_starts(tables, number)
    return all(starts[p] + rows(tables)[p].least_service <= plan.layout_force_point(tables, number, p) for p in free)


def window_fits(tables: Tables, number: int) -> bool:
    """Rule 19: the window of the coordinated phases holds an add, twice a skip, and their minimum service after a
    skip."""
    held, may = plan.coordinated(tables, number), correction(tables)
    window = min(plan.layout_force_point(tables, number, p) for p in held) - plan.zero_point(tables, number)
    least = max(rows(tables)[p].least_service for p in held)
    return may.add <= window and 2 * may.skip <= window and window - may.skip >= least


RULES = [can_correct, has_split, offset_fits, coordinates_pair, sums_agree, services_fit, window_fits]
