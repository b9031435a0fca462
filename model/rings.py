"""What the two rings end and begin in free operation and coordinated by a pattern.

docs/DEFINITIONS.md, "A tick: rings" and "A tick: coordination"; docs/DEFINITIONS.md has the plan of the standard
pattern. A phase is wanted with k if it has demand and, with a pattern, room for its service after k ticks more.
"""

import functools
from dataclasses import dataclass
from enum import Enum

from model import sides
from model.calls import maximum_recall, servable
from model.lesser import is_served
from model.past import Past
from model.plan import plan, split_time
from model.tables import DUAL_ENTRY, rows, with_option
from model.words import RINGS, Colour

EXTENSION_LIMIT = 6
"""The column of the unit that holds the extension limit, in ticks."""


class Ending(Enum):
    """The reasons for which a Green phase that has been served may end."""

    GAP = "gap"
    MAXIMUM = "maximum"
    FORCE_POINT = "force point"
    PRIORITY = "priority"
    SPLIT_FILLED = "split filled"


class Hold(Enum):
    """Why a Green phase does not end."""

    UNSERVED = "it has not been served"
    NO_REASON = "it has no reason to end"
    BARRIER = "the other ring can't leave the side"
    NOTHING_NEXT = "no next phase is wanted"


def runs_out(past: Past, p: int) -> Colour | None:
    """Returns the colour to which a clearance that is over at this tick goes; None if none is."""
    shown = past.last.frame.lights.of[p]
    if shown not in (Colour.YELLOW, Colour.CLEAR):
        return None
    began = rows(past.latched(p))[p]
    if past.run(p) < (began.yellow if shown is Colour.YELLOW else began.red_clear):
        return None
    return Colour.CLEAR if shown is Colour.YELLOW and rows(past.tables)[p].red_clear else Colour.RED


def is_startable(past: Past, p: int) -> bool:
    """Tells whether a phase has been Red for its red revert."""
    return p in past.last.frame.lights.red and past.run(p) >= max(1, rows(past.tables)[p].red_revert)


def phases_on(past: Past) -> dict[int, int]:
    """Returns by ring the phase that stays on; a ring without one is open."""
    on = past.last.frame.lights.on
    return {rows(past.tables)[p].ring: p for p in on if runs_out(past, p) is not Colour.RED}


@dataclass(eq=False)
class Rings:
    """What a tick knows of the rings."""

    past: Past
    bound: int | None
    counter: int
    request: int
    demand: frozenset[int]
    quiet: dict[int, int]
    opposed: dict[int, int]
    sequence: int

    def __post_init__(self) -> None:
        self.tables = self.past.tables
        self.row = rows(self.tables)
        self.plan = None if self.bound is None else plan(self.tables, self.bound)
        self.on = phases_on(self.past)

    @functools.cached_property
    def side(self) -> frozenset[int]:
        """Returns the side of a phase that stays on, else that of the latest frame with one on, else the last of the
        sequence."""
        p = next(iter(self.on.values()), self.past.last.latest_on)
        return sides.side(self.tables, p) if p else sides.sides_in_order(self.tables, self.sequence)[-1]

    def later(self, ring: int) -> list[int]:
        """Returns the phases of a ring in the present side that come after the one last on in it; all if that was of
        another side."""
        own = sides.ring_phases(self.tables, self.sequence, ring, self.side)
        last = self.past.last.last_on.get(ring)
        return own[own.index(last) + 1 :] if last in own else own

    def earlier(self, ring: int) -> list[int]:
        """Returns the other phases of a ring in the present side."""
        later = self.later(ring)
        return [p for p in sides.ring_phases(self.tables, self.sequence, ring, self.side) if p not in later]

    def fits(self, p: int, k: int) -> bool:
        """Tells whether the pattern that binds leaves room for the service of a phase that begins after k ticks."""
        if self.plan is None or p in self.plan.coordinated:
            return True
        return self.is_released() and self.too_few(p, k) <= 0

    def is_released(self) -> bool:
        """Tells whether the counter is at the end of the window or past it, so that other phases than the coordinated
        ones may have room."""
        return self.plan.window <= self.counter

    def too_few(self, p: int, k: int) -> int:
        """Returns how many ticks are missing before the force point of a phase for its service after k ticks more; none
        are missing if the number is 0 or less."""
        return self.counter + k + self.row[p].least_service - self.plan.force[p]

    def is_wanted(self, p: int, k: int) -> bool:
        """Tells whether a phase has demand and room."""
        return p in self.demand and self.fits(p, k)

    @functools.cached_property
    def clearance_on(self) -> int:
        """Returns the longest clearance of the phases that were on in the last frame."""
        return max((self.row[p].clearance for p in self.past.last.frame.lights.on), default=0)

    def elsewhere(self, k: int) -> bool:
        """Tells whether a phase of another side is wanted."""
        return any(self.is_wanted(p, k) for p in self.demand if p not in self.side)

    def can_begin(self, p: int) -> bool:
        """Tells whether a phase is wanted now and may turn Green."""
        return self.is_wanted(p, 0) and is_startable(self.past, p)

    def has_gap(self, p: int) -> bool:
        """Tells whether no vehicle has come for the passage time."""
        return p not in maximum_recall(self.tables, self.bound) and self.quiet.get(p, 0) >= self.row[p].passage

    def reason(self, p: int) -> Ending | None:
        """Returns the reason for which a Green phase may end. In free operation: gap or maximum; with a pattern: gap,
        an active priority request or its split filled; for a coordinated phase: only its force point."""
        if self.plan is not None and p in self.plan.coordinated:
            extension = self.tables.unit(EXTENSION_LIMIT) if self.request else 0
            return Ending.FORCE_POINT if self.counter >= self.plan.force[p] + extension else None
        if self.has_gap(p):
            return Ending.GAP
        if self.plan is None:
            return Ending.MAXIMUM if self.opposed.get(p, 0) >= self.row[p].maximum else None
        if self.request:
            return Ending.PRIORITY
        filled = self.past.run(p) + self.row[p].clearance >= split_time(self.tables, self.bound, p)
        return Ending.SPLIT_FILLED if self.plan.is_floating and filled else None

    @functools.cached_property
    def done(self) -> frozenset[int]:
        """Returns the Green phases that have been served and have a reason to end."""
        green = self.past.last.frame.lights.green
        return frozenset(p for p in green if is_served(self.past, p, None) and self.reason(p))

    def has_later(self, ring: int, p: int) -> bool:
        """Tells whether a later phase of a ring is wanted once the Green phase p of it has cleared."""
        return any(self.is_wanted(q, self.row[p].clearance) for q in self.later(ring))

    def is_forced_off(self, p: int) -> bool:
        """Tells whether a phase that the pattern doesn't coordinate has reached its force point."""
        return self.plan is not None and p not in self.plan.coordinated and self.counter >= self.plan.force[p]

    def held(self, ring: int, p: int) -> Hold | None:
        """Returns why the Green phase of a ring does not turn Yellow; None if it does."""
        if self.is_forced_off(p):
            return None
        if p not in self.done:
            return Hold.NO_REASON if is_served(self.past, p, None) else Hold.UNSERVED
        if self.has_later(ring, p):
            return None
        if self.elsewhere(self.clearance_on):
            other = 3 - ring
            q = self.on.get(other)
            return None if q is None or (q in self.done and not self.has_later(other, q)) else Hold.BARRIER
        returns = any(self.is_wanted(q, self.row[p].clearance) for q in self.earlier(ring) if q != p)
        return None if returns else Hold.NOTHING_NEXT

    def begins(self, ring: int, k: int) -> int | None:
        """Returns the phase that an open ring begins on the present side: the first later one, else, while no other
        side is wanted, the first earlier one."""
        later = next(filter(self.can_begin, self.later(ring)), None)
        if later is not None or self.elsewhere(k):
            return later
        return next(filter(self.can_begin, self.earlier(ring)), None)

    def joins(self, p: int) -> bool:
        """Tells whether a phase may turn Green along with another without demand, by dual entry."""
        may = p in with_option(self.tables, DUAL_ENTRY) and p in servable(self.tables, self.bound)
        return may and is_startable(self.past, p) and self.fits(p, 0)

    def enters(self) -> set[int]:
        """Returns the phases with which a side is entered: the next one round the sequence that has a phase that can
        begin."""
        order = sides.sides_in_order(self.tables, self.sequence)
        place = order.index(self.side) + 1
        for side in order[place:] + order[:place]:
            by_ring = [sides.ring_phases(self.tables, self.sequence, ring, side) for ring in RINGS]
            if any(self.can_begin(p) for own in by_ring for p in own):
                chosen = (
                    next(filter(self.can_begin, own), None) or next(filter(self.joins, own), None) for own in by_ring
                )
                return {p for p in chosen if p is not None}
        return set()

    def beginning(self) -> set[int]:
        """Returns the phases that turn Green."""
        open_rings = [ring for ring in RINGS if ring not in self.on]
        if len(open_rings) < 2:
            begun = (self.begins(ring, self.clearance_on) for ring in open_rings)
        elif not self.elsewhere(0) or any(self.can_begin(p) for ring in RINGS for p in self.later(ring)):
            begun = (self.begins(ring, 0) for ring in RINGS)
        else:
            return self.enters()
        return {p for p in begun if p is not None}

    def ending(self) -> set[int]:
        """Returns the phases that turn Yellow."""
        green = self.past.last.frame.lights.green
        return {p for ring, p in self.on.items() if p in green and self.held(ring, p) is None}
