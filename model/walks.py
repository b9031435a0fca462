"""On which phases Walk begins, and what all phases show to pedestrians after a tick.

docs/DEFINITIONS.md, "A tick: the frame": `walk_begins`.
"""

from dataclasses import dataclass

from model.calls import walk_recall
from model.lesser import hurry, signal_next
from model.past import Past
from model.plan import coordinated
from model.rings import Rings
from model.sides import incompatible
from model.tables import rows
from model.words import Frame, Kind, Lights, Mode, Signal, Signals

STARTS_WITH_WALK = 3
"""The start-up of a phase that turns Green with Walk as Start ends."""


@dataclass
class Crossing:
    """What a tick knows before it handles the pedestrians: the lights and the mode that it gives, and whether it is a
    local zero."""

    past: Past
    lights: Lights
    mode: Mode
    is_zero: bool
    is_start_up: bool
    rings: Rings


def is_recalled(at: Crossing, p: int) -> bool:
    """Tells whether a phase is recalled for pedestrians, by the split if the frame is coordinated."""
    bound = at.mode.number if at.mode.kind is Kind.COORD else None
    return p in walk_recall(at.past.tables, bound)


def begins_with_green(at: Crossing, p: int) -> bool:
    """Tells whether Walk comes with the Green of a phase that begins."""
    if at.mode.kind not in (Kind.FREE, Kind.SEEK, Kind.COORD):
        return False
    row = rows(at.past.tables)[p]
    walks = at.is_start_up and row.startup == STARTS_WITH_WALK
    return row.walk >= 1 and (p in at.past.told.calls.pressed or is_recalled(at, p) or walks)


def begins_on_green(at: Crossing, p: int) -> bool:
    """Tells whether Walk comes on a phase that was Green before, stays so, and showed no signal: in free operation
    at a call while no incompatible phase has demand, with a pattern on a coordinated phase at a local zero."""
    tables, called = at.past.tables, p in at.past.told.calls.pressed
    if at.past.last.frame.signals.of[p] is not Signal.DONT or rows(tables)[p].walk < 1:
        return False
    if at.mode.kind is Kind.FREE:
        return called and not at.rings.demand & incompatible(tables)[p]
    if at.mode.kind is Kind.COORD and at.is_zero:
        return p in coordinated(tables, at.mode.number) and (called or is_recalled(at, p))
    return False


def signals_after(at: Crossing, goal: frozenset[int] | None) -> Signals:
    """Returns what all phases show to pedestrians after the tick."""
    before: Frame = at.past.last.frame
    new: dict[int, Signal] = {}
    for p in before.signals.running:
        follows = signal_next(at.past, p, hurry(at.past, at.mode, goal, p))
        if follows is not before.signals.of[p]:
            new[p] = follows
    for p in at.lights.green:
        begins = begins_on_green if p in before.lights.green else begins_with_green
        if begins(at, p):
            new[p] = Signal.WALK
    return before.signals.changed(new)
