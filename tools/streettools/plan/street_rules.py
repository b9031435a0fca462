"""The rules of tables (docs/SCENARIO.md) that ask of phases, rings, orders, times and preempts: each yields the rows
that break it."""

from collections.abc import Callable, Iterator

from ..shared.tables import ALL, Tables
from ..shared.cells import PREEMPTS, RINGS, SEQUENCES, value
from .layout import concurrent, least_service, sides, sides_by_phase

LEAST_YELLOW = 30
STARTS = (3, 4)
SETS = {12: "track", 13: "dwell", 15: "exit"}


def start_up(tables: Tables) -> list[int]:
    """Returns the phases that turn green as start-up ends."""
    return [phase for phase in tables.enabled() if value(tables, ("phase", phase, 20)) in STARTS]


def of_ring(tables: Tables, ring: int) -> list[int]:
    """Returns the enabled phases of a ring."""
    return [phase for phase in tables.enabled() if value(tables, ("phase", phase, 22)) == ring]


def used_sequences(tables: Tables) -> list[int]:
    """Returns sequence 1 and each other that isn't empty in both rings."""
    return [it for it in SEQUENCES if it == 1 or any(value(tables, ("sequence", it, ring)) for ring in RINGS)]


def phase_rule(tables: Tables, keeps: Callable[[int], bool]) -> Iterator[int]:
    """Yields the enabled phases that don't keep a rule."""
    return (phase for phase in tables.enabled() if not keeps(phase))


def rule_1(tables: Tables) -> Iterator[int]:
    """The ring is 1 or 2."""
    return phase_rule(tables, lambda it: value(tables, ("phase", it, 22)) in RINGS)


def rule_2(tables: Tables) -> Iterator[int]:
    """The list holds phases, and not its own."""
    return phase_rule(
        tables, lambda it: all(other in ALL and other != it for other in value(tables, ("phase", it, 23)))
    )


def rule_3(tables: Tables) -> Iterator[int]:
    """Each phase of the list has this one in turn."""
    return phase_rule(
        tables, lambda it: all(it in value(tables, ("phase", other, 23)) for other in concurrent(tables, it))
    )


def rule_4(tables: Tables) -> Iterator[int]:
    """The list names only phases of the other ring."""
    ring = {it: value(tables, ("phase", it, 22)) for it in ALL}
    return phase_rule(tables, lambda it: all(ring[other] != ring[it] for other in concurrent(tables, it)))


def rule_5(tables: Tables) -> Iterator[int]:
    """Some phase of the list is enabled."""
    return phase_rule(tables, lambda it: bool(concurrent(tables, it)))


def partner_in_ring(tables: Tables, phase: int) -> int | None:
    """Returns a phase of the same ring that shares a concurrent phase with this one, but has others besides."""
    mine = concurrent(tables, phase)
    for other in of_ring(tables, value(tables, ("phase", phase, 22))):
        theirs = concurrent(tables, other)
        if other != phase and mine & theirs and mine != theirs:
            return other
    return None


def rule_6(tables: Tables) -> Iterator[int]:
    """Phases of a ring with a concurrent phase in common have the same ones."""
    return phase_rule(tables, lambda it: partner_in_ring(tables, it) is None)


def rule_7(tables: Tables) -> Iterator[int]:
    """There are two sides or more."""
    if len(sides(tables)) < 2:
        yield 0


def rule_8(tables: Tables) -> Iterator[int]:
    """Each ring of a sequence has each of its enabled phases once, and nothing else."""
    for number in used_sequences(tables):
        if any(sorted(value(tables, ("sequence", number, ring))) != of_ring(tables, ring) for ring in RINGS):
            yield number


def side_turns(tables: Tables, number: int, ring: int) -> list[frozenset[int]]:
    """Returns the sides in the order in which a ring of a sequence serves them, each as often as it does."""
    side = sides_by_phase(tables)
    turns: list[frozenset[int]] = []
    for phase in value(tables, ("sequence", number, ring)):
        if not turns or turns[-1] != side[phase]:
            turns.append(side[phase])
    return turns


def rule_9(tables: Tables) -> Iterator[int]:
    """The phases of a side are together, and the sides are in one order in both rings."""
    for number in used_sequences(tables):
        turns = [side_turns(tables, number, ring) for ring in RINGS]
        if turns[0] != turns[1] or len(set(turns[0])) < len(turns[0]):
            yield number


def rule_10(tables: Tables) -> Iterator[int]:
    """The yellow change is 3.0 s or more."""
    return phase_rule(tables, lambda it: value(tables, ("phase", it, 8)) >= LEAST_YELLOW)


def sooner(tables: Tables, phase: int) -> int | None:
    """Returns another phase that may be over sooner than the red revert of this one."""
    revert = value(tables, ("phase", phase, 10))
    for other in tables.enabled():
        if other != phase and revert > least_service(tables, other) + tables.clearance(other):
            return other
    return None


def rule_11(tables: Tables) -> Iterator[int]:
    """The red revert is no longer than the minimum service and clearance of any other phase together."""
    return phase_rule(tables, lambda it: sooner(tables, it) is None)


def rule_12(tables: Tables) -> Iterator[int]:
    """Phases that turn green as start-up ends are concurrent."""
    starting = start_up(tables)
    for phase in starting:
        if any(other != phase and other not in value(tables, ("phase", phase, 23)) for other in starting):
            yield phase


def rule_13(tables: Tables) -> Iterator[int]:
    """The correction mode is 2, 3 or 4, and its limits are 1 or more."""
    if value(tables, ("unit", 1)) not in (2, 3, 4) or any(value(tables, ("unit", it)) < 1 for it in (2, 3, 4)):
        yield 0


def goes_together(tables: Tables, phases: tuple) -> bool:
    """Tells whether phases are enabled, none twice, all concurrent."""
    if any(it not in tables.enabled() for it in phases) or len(set(phases)) < len(phases):
        return False
    return all(one == other or other in value(tables, ("phase", one, 23)) for one in phases for other in phases)


def rule_20(tables: Tables) -> Iterator[int]:
    """Track, dwell and exit of a preempt hold enabled phases, none twice, all concurrent."""
    for number in PREEMPTS:
        if not all(goes_together(tables, value(tables, ("preempt", number, column))) for column in SETS):
            yield number


def rule_22(tables: Tables) -> Iterator[int]:
    """Where walk is 0, so is the pedestrian clearance."""
    return phase_rule(tables, lambda it: value(tables, ("phase", it, 2)) > 0 or value(tables, ("phase", it, 3)) == 0)


def rule_21(new: Tables, old: Tables) -> Iterator[int]:
    """A download leaves the enabled phases, their rings and their lists as they are."""
    for phase in ALL:
        on = [phase in tables.enabled() for tables in (new, old)]
        ring = [value(tables, ("phase", phase, 22)) for tables in (new, old)]
        if on[0] != on[1] or (on[0] and (ring[0] != ring[1] or concurrent(new, phase) != concurrent(old, phase))):
            yield phase
