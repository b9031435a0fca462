"""The rules that a cabinet's tables must keep: the first that they break, and its lowest row.

docs/SCENARIO.md, "The rules of tables". The rules 1 to 12 and 20 to 22 speak of phases, sides, sequences and preempts,
the rules 13 to 19 (pattern_rules.py) of coordination. A rule is tested only if all rules before it hold in all rows.
"""

from collections.abc import Callable, Iterable
from dataclasses import dataclass

from model import pattern_rules
from model.cells import Table
from model.plan import PATTERNS
from model.preempts import PREEMPTS
from model.sides import concurrent, sequence, side
from model.tables import Tables, enabled, of_tables, rows
from model.words import PHASES, RINGS

SEQUENCES = range(1, 17)


@dataclass(frozen=True)
class Broken:
    """A rule that tables break, and the row at which they do."""

    rule: int
    row: int


def listed(tables: Tables, p: int) -> frozenset[int]:
    """Returns the enabled phases of the list of a phase."""
    return frozenset(rows(tables)[p].listed) & enabled(tables)


def has_ring(tables: Tables, p: int) -> bool:
    """Rule 1: the ring is 1 or 2."""
    return rows(tables)[p].ring in RINGS


def lists_phases(tables: Tables, p: int) -> bool:
    """Rule 2: the list holds numbers 1 to 16, and not its own."""
    return all(q in PHASES and q != p for q in rows(tables)[p].listed)


def is_listed_back(tables: Tables, p: int) -> bool:
    """Rule 3: each phase of its list has it in turn."""
    return all(p in rows(tables)[q].listed for q in listed(tables, p))


def lists_other_ring(tables: Tables, p: int) -> bool:
    """Rule 4: the list names only phases of the other ring."""
    return all(rows(tables)[q].ring != rows(tables)[p].ring for q in listed(tables, p))


def lists_some(tables: Tables, p: int) -> bool:
    """Rule 5: some phase of the list is enabled."""
    return bool(listed(tables, p))


def shares_alike(tables: Tables, p: int) -> bool:
    """Rule 6: a phase of its ring that shares a concurrent phase with it has the same ones."""
    own, row = listed(tables, p), rows(tables)
    fellows = (q for q in enabled(tables) if row[q].ring == row[p].ring)
    return all(listed(tables, q) == own for q in fellows if listed(tables, q) & own)


def has_sides(tables: Tables, _row: int) -> bool:
    """Rule 7: there are two sides of the barrier or more."""
    return len({side(tables, p) for p in enabled(tables)}) >= 2


def is_used(tables: Tables, number: int) -> bool:
    """Tells whether a sequence is the first, or isn't empty in both rings."""
    return number == 1 or any(sequence(tables, number, ring) for ring in RINGS)


def orders_each(tables: Tables, number: int) -> bool:
    """Rule 8: each ring has each of its enabled phases once, and nothing else."""
    row = rows(tables)
    return all(
        sorted(sequence(tables, number, ring)) == sorted(p for p in enabled(tables) if row[p].ring == ring)
        for ring in RINGS
    )


def keeps_sides(tables: Tables, number: int) -> bool:
    """Rule 9: the phases of a side come one after another, and the sides in the same order in both rings."""

    def sides_of(ring: int) -> list[frozenset[int]]:
        found: list[frozenset[int]] = []
        for p in sequence(tables, number, ring):
            if not found or found[-1] != side(tables, p):
                found.append(side(tables, p))
        return found

    first, second = map(sides_of, RINGS)
    return first == second and len(set(first)) == len(first)


def has_yellow(tables: Tables, p: int) -> bool:
    """Rule 10: the yellow change is 3.0 s or more."""
    return rows(tables)[p].yellow >= 30


def reverts_in_time(tables: Tables, p: int) -> bool:
    """Rule 11: the red revert is no longer than the minimum service and clearance of any other phase together."""
    row = rows(tables)
    return all(row[p].red_revert <= row[q].least_service + row[q].clearance for q in enabled(tables) if q != p)


def starts_together(tables: Tables, p: int) -> bool:
    """Rule 12: phases that turn green as start-up ends are concurrent."""
    row = rows(tables)
    if row[p].startup not in (3, 4):
        return True
    return all(q in concurrent(tables)[p] for q in enabled(tables) if q != p and row[q].startup in (3, 4))


def preempts_together(tables: Tables, number: int) -> bool:
    """Rule 20: track, dwell and exit hold enabled phases, none twice, all concurrent."""

    def goes(octets: bytes) -> bool:
        beside = concurrent(tables)
        alone = len(set(octets)) == len(octets) and all(p in enabled(tables) for p in octets)
        return alone and all(q in beside[p] for p in octets for q in octets if p != q)

    return all(goes(tables.octets(Table.PREEMPT, number, column)) for column in (12, 13, 15))


def clears_after_walk(tables: Tables, p: int) -> bool:
    """Rule 22: where walk is 0, so is the pedestrian clearance."""
    return rows(tables)[p].walk > 0 or rows(tables)[p].ped_clear == 0


def has_structure_of(tables: Tables, in_force: Tables, p: int) -> bool:
    """Rule 21: a phase is enabled or not, and has its ring and its list, as in the tables in force."""
    if (p in enabled(tables)) != (p in enabled(in_force)):
        return False
    if p not in enabled(tables):
        return True
    return rows(tables)[p].ring == rows(in_force)[p].ring and listed(tables, p) == listed(in_force, p)


Rule = Callable[[Tables, int], bool]
BEFORE_PATTERNS: list[Rule] = [
    has_ring,
    lists_phases,
    is_listed_back,
    lists_other_ring,
    lists_some,
    shares_alike,
    has_sides,
    orders_each,
    keeps_sides,
    has_yellow,
    reverts_in_time,
    starts_together,
]


def rows_of(tables: Tables, rule: int) -> Iterable[int]:
    """Returns the rows of which a rule speaks."""
    if rule in (7, 13):
        return (0,)
    if rule in (8, 9):
        return (number for number in SEQUENCES if is_used(tables, number))
    if 14 <= rule <= 19:
        return (number for number in PATTERNS if pattern_rules.plan.is_defined(tables, number))
    return PREEMPTS if rule == 20 else sorted(enabled(tables))


@of_tables
def first_own(tables: Tables, rules: range) -> Broken | None:
    """Returns the first of some rules that tables break by themselves."""
    held = dict(enumerate([*BEFORE_PATTERNS, *pattern_rules.RULES, preempts_together], 1)) | {22: clears_after_walk}
    for rule in rules:
        for row in rows_of(tables, rule):
            if not held[rule](tables, row):
                return Broken(rule, row)
    return None


def first_broken(tables: Tables, in_force: Tables, is_flashing: bool) -> Broken | None:
    """Returns the first rule that tables break, together with those in force, and its lowest row; None if they break
    none."""
    if broken := first_own(tables, range(1, 21)):
        return broken
    if not is_flashing and tables is not in_force:
        for p in PHASES:
            if not has_structure_of(tables, in_force, p):
                return Broken(21, p)
    return first_own(tables, range(22, 23))
