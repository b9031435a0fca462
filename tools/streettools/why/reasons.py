"""The reasons for which a phase is green, or isn't, at one tick: the model's own decisions at that tick, as data.

Nothing is reckoned again here: each question is asked of the function by which the model decides (docs/TICK.md says
them in words). The first reason is the answer; others that hold at the same tick follow it.
"""

import functools
from enum import Enum
from typing import NamedTuple

from model import modes
from model.calls import Caller, called, callers, servable
from model.goals import in_the_way
from model.lesser import has_least_green, hurry, signal_next
from model.rings import EXTENSION_LIMIT, Ending, Hold, is_startable, runs_out
from model.sides import incompatible
from model.tables import enabled, rows
from model.tick import Decided
from model.words import FLASH, PHASES, START, Colour, Signal
from model.words import Kind as ModeKind


class Kind(Enum):
    """The kinds of reasons. docs/WHY.md has a row for each."""

    DISABLED = "not enabled"
    START_UP = "start-up"
    FLASH = "flash"
    ENDING = "on the way to flash"
    SEEK = "seek"
    PREEMPT = "preempt"
    OMITTED = "omitted"
    UNCALLED = "not called"
    REST = "coordinated rest"
    ROOM = "no room"
    MINIMUM = "minimum green"
    WALK = "walk"
    FLASHING = "flashing don't walk"
    EXTENDED = "neither gap nor maximum"
    HELD = "held until its force point"
    REQUEST = "held by a priority request"
    CLEARANCE = "clearance"
    TURN = "turn"
    REVERT = "red revert"
    NOTHING_NEXT = "nothing else is wanted"
    BEGINS = "turns green"
    ENDS = "turns yellow"
    UNKNOWN = "unknown"


class Reason(NamedTuple):
    """A reason: its kind and its subject. `phases` are the phases that are waited for; `across` tells that they are of
    the other ring, so that the barrier is waited for; `number` is that of a pattern, a preempt or a priority request;
    `ticks` says how many are missing, or for how many a request may hold a green; `word` is how a green ended, how it
    came, or the stage of a preempt."""

    kind: Kind
    phases: tuple[int, ...] = ()
    across: bool = False
    number: int = 0
    ticks: int = 0
    word: str = ""

    @property
    def subject(self) -> tuple[Kind, tuple[int, ...], bool, int, str]:
        """What stays the same while the reason holds; the missing ticks change."""
        return self.kind, self.phases, self.across, self.number, self.word


Reasons = tuple[Reason, ...]

BY_MODE = {ModeKind.SEEK: Kind.SEEK, ModeKind.ENDING: Kind.ENDING}
"""The reasons of modes that bring certain phases to green; the other such modes are stages of a preempt."""
STAGES = {ModeKind.ENTRY: "entry", ModeKind.TRACK: "track", ModeKind.DWELL: "dwell", ModeKind.EXIT: "exit"}


def is_called(at: Decided, p: int) -> bool:
    """Tells whether a phase is called at a tick and isn't green."""
    return p not in at.past.last.frame.lights.green and p in called(
        at.past.told.calls, at.past.tables, at.now.bound
    )


def called_by(at: Decided, p: int) -> tuple[Caller, ...]:
    """Returns what calls a phase at a tick."""
    found: tuple[Caller, ...] = callers(at.past.told.calls, at.past.tables, at.now.bound, p)
    return found


@functools.lru_cache(len(PHASES))
def reasons(at: Decided, p: int) -> Reasons:
    """Returns why a phase is green or isn't, in the frame that a tick gives. Watches of one phase share it."""
    shown = at.past.last.frame.lights.of[p]
    if p in at.begun:
        return (Reason(Kind.BEGINS, word=came_by(at, p)),)
    if p in at.ended:
        word = ended_by(at, p)
        number = at.rings.request if word == Ending.PRIORITY.value else 0
        return (Reason(Kind.ENDS, number=number, word=word),)
    if shown is Colour.GREEN:
        return (stays(at, p, False),)
    if shown is not Colour.RED and runs_out(at.past, p) is not Colour.RED:
        return (Reason(Kind.CLEARANCE, (p,)),)
    return of_red(at, p)


def came_by(at: Decided, p: int) -> str:
    """Returns how a green begins: as start-up ends, by a mode that brings its phases to green, by a call, or beside
    another phase by dual entry."""
    if p in at.started:
        return "start-up"
    if has_goal(at):
        return goal_reason(at).kind.value
    return "call" if at.rings.is_wanted(p, 0) else "dual entry"


def ended_by(at: Decided, p: int) -> str:
    """Returns how a green ends: forced off, by its reason to end, or by a mode that brings others to green."""
    if has_goal(at):
        return goal_reason(at).kind.value
    if at.rings.is_forced_off(p):
        return "force-off"
    found: Ending = at.rings.reason(p)
    return str(found.value)


def has_goal(at: Decided) -> bool:
    """Tells whether the mode of a tick brings certain phases to green, and no others."""
    return at.now.mode.kind in modes.GOALS


def goal_reason(at: Decided) -> Reason:
    """Returns the reason for which a mode with a goal keeps other phases red, or its own green."""
    mode = at.now.mode
    goal = tuple(sorted(modes.goal(at.past.tables, mode)))
    return Reason(BY_MODE.get(mode.kind, Kind.PREEMPT), goal, number=mode.number, word=STAGES.get(mode.kind, ""))


def of_red(at: Decided, p: int) -> Reasons:
    """Returns why a phase is red."""
    mode = at.now.mode
    if p not in enabled(at.past.tables):
        return (Reason(Kind.DISABLED),)
    if mode == FLASH:
        return (Reason(Kind.FLASH),)
    if mode == START or at.started:
        return (Reason(Kind.START_UP),)
    return toward_goal(at, p) if has_goal(at) else in_rings(at, p)


def toward_goal(at: Decided, p: int) -> Reasons:
    """Returns why a phase is red in a mode that brings certain phases to green."""
    if p not in modes.goal(at.past.tables, at.now.mode):
        return (goal_reason(at),)
    ring = rows(at.past.tables)[p].ring
    found = [stays(at, q, rows(at.past.tables)[q].ring != ring) for q in in_the_way(at.past, p)]
    return (*((*found, *reverting(at, p)) or (Reason(Kind.UNKNOWN),)), goal_reason(at))


def reverting(at: Decided, p: int) -> Reasons:
    """Returns that a phase hasn't been red for its red revert, if so."""
    return () if is_startable(at.past, p) else (Reason(Kind.REVERT),)


def unserved(at: Decided, p: int, across: bool) -> Reason | None:
    """Returns which time of a green phase still runs: its minimum green, a walk, a pedestrian clearance; None where it
    has been served."""
    row = hurry(at.past, at.now.mode, modes.goal(at.past.tables, at.now.mode), p) if has_goal(at) else None
    if not has_least_green(at.past, p, row):
        return Reason(Kind.MINIMUM, (p,), across)
    runs = signal_next(at.past, p, row)
    if runs is Signal.DONT:
        return None
    return Reason(Kind.WALK if runs is Signal.WALK else Kind.FLASHING, (p,), across)


def stays(at: Decided, p: int, across: bool) -> Reason:
    """Returns why a phase that stays on does so; `across` tells that one of the other ring waits for it."""
    if at.past.last.frame.lights.of[p] is not Colour.GREEN or p in at.ended:
        return Reason(Kind.CLEARANCE, (p,), across)
    if has_goal(at):
        return unserved(at, p, across) or goal_reason(at)
    rings = at.rings
    ring = rows(at.past.tables)[p].ring
    hold = rings.held(ring, p)
    if hold is Hold.UNSERVED:
        return unserved(at, p, across) or Reason(Kind.UNKNOWN)
    if hold is Hold.NO_REASON:
        if rings.plan is None:
            return Reason(Kind.EXTENDED, (p,), across, word="maximum")
        if p in rings.plan.coordinated and rings.counter >= rings.plan.force[p]:
            return by_request(at, across)
        kind = Kind.HELD if p in rings.plan.coordinated else Kind.EXTENDED
        return Reason(kind, (p,), across, number=at.now.bound, word="force point")
    if hold is Hold.BARRIER and not across:
        return barrier(at, 3 - ring)
    if hold is not Hold.NOTHING_NEXT:
        return Reason(Kind.UNKNOWN, (p,), across)
    crowded = rings.demand & incompatible(at.past.tables)[p]
    return Reason(Kind.NOTHING_NEXT, (p,), across, word="no room" if crowded else "no call")


def by_request(at: Decided, across: bool) -> Reason:
    """Returns that the active priority request holds the coordinated phases that are past their force points."""
    rings = at.rings
    held = (q for q in rings.plan.coordinated if q in rings.on.values() and rings.counter >= rings.plan.force[q])
    limit = int(at.past.tables.unit(EXTENSION_LIMIT))
    return Reason(Kind.REQUEST, tuple(sorted(held)), across, number=rings.request, ticks=limit)


def barrier(at: Decided, ring: int) -> Reason:
    """Returns what the other ring waits for at the barrier: why the phase of this ring stays, or which of its phases
    come first."""
    rings = at.rings
    p = rings.on[ring]
    if p in rings.done and rings.has_later(ring, p):
        clearance = rings.row[p].clearance
        return Reason(Kind.TURN, tuple(sorted(q for q in rings.later(ring) if rings.is_wanted(q, clearance))), True)
    return stays(at, p, True)


def delay(at: Decided, p: int) -> int:
    """Returns after how many ticks the model asks whether there is room for a phase: the clearance of a green that has
    to end before, none where no green is in its way."""
    rings, green = at.rings, at.past.last.frame.lights.green
    ring = rings.row[p].ring
    own, other = rings.on.get(ring), rings.on.get(3 - ring)
    if own in green:
        return int(rings.row[own].clearance if p in rings.side else rings.clearance_on)
    return int(rings.clearance_on) if own is None and other in green and p not in rings.side else 0


def room(at: Decided, p: int, k: int) -> Reasons:
    """Returns that a phase that begins after k ticks has no room in the cycle, if so: the coordinated phases rest, or
    its force point is too near."""
    rings = at.rings
    if rings.fits(p, k):
        return ()
    number = at.now.bound
    if not rings.is_released():
        missing = rings.plan.window - rings.counter
        return (Reason(Kind.REST, tuple(sorted(rings.plan.coordinated)), number=number, ticks=missing),)
    return (Reason(Kind.ROOM, number=number, ticks=rings.too_few(p, k)),)


def in_rings(at: Decided, p: int) -> Reasons:
    """Returns why a phase is red in free operation or while coordinated."""
    rings = at.rings
    if p not in servable(at.past.tables, at.now.bound):
        return (Reason(Kind.OMITTED, number=at.now.bound),)
    if p not in at.past.last.frame.lights.red:
        return (Reason(Kind.REVERT),)
    if p not in rings.demand:
        return (Reason(Kind.UNCALLED),)
    surely, after = room(at, p, 0), room(at, p, delay(at, p))
    held = waits(at, p)
    if held.kind is Kind.NOTHING_NEXT:
        found: Reasons = surely or after
    else:
        found = (*surely, *(() if held.kind is Kind.UNKNOWN else (held,)), *(() if surely else after))
    return (*found, *reverting(at, p)) or (first_others(at),)


def waits(at: Decided, p: int) -> Reason:
    """Returns for which phase on the way a phase waits: that of its ring, or beyond the barrier that of the other ring;
    a reason of no kind where none is in its way."""
    rings = at.rings
    ring = rings.row[p].ring
    if ring in rings.on:
        return stays(at, rings.on[ring], False)
    if p not in rings.side and 3 - ring in rings.on:
        return barrier(at, 3 - ring)
    return Reason(Kind.UNKNOWN)


def first_others(at: Decided) -> Reason:
    """Returns that other phases come first: those that begin at this tick, else those of another barrier group."""
    rings = at.rings
    elsewhere = (q for q in rings.demand if q not in rings.side and rings.is_wanted(q, rings.clearance_on))
    first = tuple(sorted(at.begun or elsewhere))
    return Reason(Kind.TURN, first) if first else Reason(Kind.UNKNOWN)
