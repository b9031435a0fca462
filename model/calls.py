"""The calls of vehicles and pedestrians, and which phases have demand or are active at a tick.

docs/SCENARIO.md, "Names"; docs/DEFINITIONS.md, "A tick: calls". What is said of the split holds while a
pattern binds: `bound` is its number, None where none does.
"""

from dataclasses import dataclass, replace
from enum import Enum

from model import plan
from model.tables import (
    MAXIMUM_RECALL,
    MINIMUM_RECALL,
    NON_LOCK,
    PEDESTRIAN_RECALL,
    Tables,
    enabled,
    of_tables,
    rows,
    with_option,
)
from model.words import Frame, Signal

Phases = frozenset[int]
NONE: Phases = frozenset()


class Caller(Enum):
    """What gives a phase demand while it is Red."""

    DETECTOR = "detector"
    LOCKED = "locked call"
    BUTTON = "button"
    MINIMUM_RECALL = "minimum recall"
    MAXIMUM_RECALL = "maximum recall"
    PEDESTRIAN_RECALL = "pedestrian recall"
    COORDINATED = "coordinated"


@dataclass(frozen=True)
class Calls:
    """The calls that stand and the detectors that are on, for all 16 phases; `turned` are those turned on since the
    last frame."""

    locked: Phases = NONE
    pressed: Phases = NONE
    detectors: Phases = NONE
    turned: Phases = NONE


def with_detector(calls: Calls, p: int, on: bool, tables: Tables, shown: Frame) -> Calls:
    """Returns the calls after a detector went on or off: on it locks a call where the phase isn't Green and its
    memory locks."""
    if not on:
        return replace(calls, detectors=calls.detectors - {p})
    locks = p not in shown.lights.green and not rows(tables)[p].options & NON_LOCK
    return Calls(
        locked=calls.locked | {p} if locks else calls.locked,
        pressed=calls.pressed,
        detectors=calls.detectors | {p},
        turned=calls.turned | {p},
    )


def with_button(calls: Calls, p: int, tables: Tables, shown: Frame) -> Calls:
    """Returns the calls after a push button was pressed: it calls where the phase has a walk, unless it shows Walk."""
    if rows(tables)[p].walk < 1 or shown.signals.of[p] is Signal.WALK:
        return calls
    return replace(calls, pressed=calls.pressed | {p})


def after_frame(calls: Calls, shown: Frame) -> Calls:
    """Returns the calls that a frame leaves: a call of vehicles ends as its phase shows Green, one of pedestrians as
    it shows Walk."""
    walking = frozenset(p for p in shown.signals.running if shown.signals.of[p] is Signal.WALK)
    return Calls(calls.locked - shown.lights.green, calls.pressed - walking, calls.detectors)


def split_recall(tables: Tables, bound: int | None, modes: tuple[int, ...]) -> Phases:
    """Returns the phases to which the split of a pattern that binds gives one of some modes."""
    if bound is None:
        return NONE
    return frozenset(p for p in enabled(tables) if plan.split_mode(tables, bound, p) in modes)


@of_tables
def maximum_recall(tables: Tables, bound: int | None) -> Phases:
    """Returns the phases that are held to their maximum: by their options, or by split mode 4 or 6."""
    return with_option(tables, MAXIMUM_RECALL) | split_recall(tables, bound, (4, 6))


@of_tables
def walk_recall(tables: Tables, bound: int | None) -> Phases:
    """Returns the phases with a walk that are recalled for pedestrians: by their options, or by split mode 5 or 6."""
    recalled = with_option(tables, PEDESTRIAN_RECALL) | split_recall(tables, bound, (5, 6))
    return frozenset(p for p in recalled if rows(tables)[p].walk >= 1)


@of_tables
def standing_callers(tables: Tables, bound: int | None) -> tuple[tuple[Caller, Phases], ...]:
    """Returns the phases that have demand whenever they are Red, by what calls them: a recall of any kind, or the
    pattern that binds and coordinates them."""
    return (
        (Caller.MINIMUM_RECALL, with_option(tables, MINIMUM_RECALL) | split_recall(tables, bound, (3,))),
        (Caller.MAXIMUM_RECALL, maximum_recall(tables, bound)),
        (Caller.PEDESTRIAN_RECALL, walk_recall(tables, bound)),
        (Caller.COORDINATED, NONE if bound is None else plan.coordinated(tables, bound)),
    )


@of_tables
def standing_demand(tables: Tables, bound: int | None) -> Phases:
    """Returns the phases that have demand whenever they are Red."""
    return NONE.union(*(phases for _, phases in standing_callers(tables, bound)))


@of_tables
def servable(tables: Tables, bound: int | None) -> Phases:
    """Returns the enabled phases but those that the pattern that binds leaves out."""
    return enabled(tables) - (NONE if bound is None else plan.omitted(tables, bound))


@of_tables
def walkers(tables: Tables) -> Phases:
    """Returns the enabled phases that have a walk."""
    return frozenset(p for p in enabled(tables) if rows(tables)[p].walk >= 1)


def by_input(calls: Calls, tables: Tables) -> tuple[Phases, Phases, Phases]:
    """Returns the phases that inputs call: by a vehicle on the detector, a locked call, a push button."""
    return calls.detectors, calls.locked, calls.pressed & walkers(tables)


def callers(calls: Calls, tables: Tables, bound: int | None, p: int) -> tuple[Caller, ...]:
    """Returns what calls a phase, whether it is Red or not."""
    inputs = zip((Caller.DETECTOR, Caller.LOCKED, Caller.BUTTON), by_input(calls, tables))
    return tuple(caller for caller, phases in (*inputs, *standing_callers(tables, bound)) if p in phases)


def called(calls: Calls, tables: Tables, bound: int | None) -> Phases:
    """Returns the phases that are called, by an input or always, whether they are Red or not."""
    return standing_demand(tables, bound).union(*by_input(calls, tables))


def demand(calls: Calls, tables: Tables, shown: Frame, bound: int | None) -> Phases:
    """Returns the phases with demand: Red, not left out, and called, with a vehicle on the detector, recalled or
    coordinated."""
    return called(calls, tables, bound) & shown.lights.red & servable(tables, bound)


def active(calls: Calls, tables: Tables, bound: int | None) -> Phases:
    """Returns the phases whose detector is on or was turned on since the last frame, or that are held to their
    maximum."""
    return calls.detectors | calls.turned | maximum_recall(tables, bound)
