"""The counter of a pattern's cycle, and how it is corrected.

docs/DEFINITIONS.md, "A tick: coordination": `next_counter`; docs/SCENARIO.md, the units 1 to 4. Of the steps since the
last local zero or pickup are kept: how many held the counter, how many skipped, and whether the last one changed the
counter.
"""

from dataclasses import dataclass

from model.plan import Plan
from model.tables import Tables, of_tables

DWELL, SHORTWAY, ADD_ONLY = 2, 3, 4


@dataclass(frozen=True)
class Cycle:
    """The steps since the counter last became 0, or the pattern was picked up. A pickup counts as a change."""

    stands: int = 0
    skips: int = 0
    has_moved: bool = True


@dataclass(frozen=True)
class Correction:
    """How an offset may be corrected: the mode, and the limits of a cycle."""

    mode: int
    dwell: int
    add: int
    skip: int


@of_tables
def correction(tables: Tables) -> Correction:
    """Returns how the tables let an offset be corrected."""
    return Correction(tables.unit(1), tables.unit(2), tables.unit(3), tables.unit(4))


def step(may: Correction, laid: Plan, counter: int, target: int, cycle: Cycle) -> int:
    """Returns by how much the counter advances: 1, as time does, 0 or 2."""
    early = (target - counter - 1) % laid.cycle
    if early == 0 or counter >= laid.window:
        return 1
    if may.mode == DWELL:
        return 0 if counter == 0 and cycle.stands < may.dwell else 1
    adds = may.mode == ADD_ONLY or -(-(laid.cycle - early) // may.add) <= -(-early // may.skip)
    if adds:
        return 0 if cycle.has_moved and cycle.stands < may.add else 1
    return 2 if counter + 2 <= laid.window and cycle.skips < may.skip else 1


def after_step(laid: Plan, counter: int, by: int, cycle: Cycle) -> tuple[int, Cycle]:
    """Returns the counter after a step, and what is kept of its cycle."""
    now = (counter + by) % laid.cycle
    if now == 0 and by:
        return now, Cycle()
    return now, Cycle(cycle.stands + (by == 0), cycle.skips + (by == 2), by != 0)
