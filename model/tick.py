"""One tick: from a cabinet's past to its next moment.

docs/DEFINITIONS.md, "A tick: the frame". In this order: the clock, the command and the requests, the mode, the
counter, the colours, whether the pattern is picked up, the signals.
"""

from dataclasses import dataclass

from model import calls, modes, orders, priority
from model.counter import Cycle, after_step, correction, step
from model.goals import goal_begins, goal_ends
from model.orders import Drift
from model.past import Moment, Past, began, held_for, lasting, on_last, stage_of
from model.plan import coordinated, pattern, plan
from model.rings import Rings, runs_out
from model.sides import incompatible
from model.tables import enabled, rows
from model.walks import Crossing, signals_after
from model.words import FLASH, START, Colour, Frame, Kind, Mode

STARTS_GREEN = (3, 4)
"""The start-ups of phases that turn Green as Start ends."""


@dataclass
class TickState:
    """What a tick is about, before calls and colours are looked at."""

    number: int
    clock: int
    command: int
    commanded: int
    preempts: dict[int, int]
    mode: Mode
    bound: int | None
    target: int
    counter: int
    cycle: Cycle
    places: priority.Places
    request: int


def tick_state(past: Past, drift: Drift) -> TickState:
    """Returns what the tick that comes is about."""
    last, number = past.last, past.last.number + 1
    command, commanded = orders.command_now(past)
    clock = orders.clock_now(past, drift)
    preempts = lasting(last.preempts, past.told.inputs)
    mode = modes.sought(past, command, preempts)
    bound = mode.number if mode.kind is Kind.COORD else None
    target = orders.target(past, mode, clock)
    counter, cycle = 0, Cycle()
    if bound is not None:
        laid = plan(past.tables, bound)
        by = step(correction(past.tables), laid, last.frame.counter, target, last.cycle)
        counter, cycle = after_step(laid, last.frame.counter, by, last.cycle)
    held = frozenset() if bound is None else coordinated(past.tables, bound)
    places, request = priority.after_tick(past.told.places, number, held)
    return TickState(number, clock, command, commanded, preempts, mode, bound, target, counter, cycle, places, request)


def rings_seen(past: Past, now: TickState) -> Rings:
    """Returns what the tick sees of calls and rings."""
    tables, frame, told = past.tables, past.last.frame, past.told.calls
    wanted = calls.demand(told, tables, frame, now.bound)
    green, against = frame.lights.green, incompatible(tables)
    return Rings(
        past=past,
        bound=now.bound,
        counter=now.counter,
        request=now.request,
        demand=wanted,
        quiet=lasting(past.last.quiet, green - calls.active(told, tables, now.bound)),
        opposed=lasting(past.last.opposed, frozenset(p for p in green if against[p] & wanted)),
        sequence=pattern(tables, now.mode.number).sequence if now.mode.kind in (Kind.SEEK, Kind.COORD) else 1,
    )


def start_up_phases(past: Past, mode: Mode) -> set[int]:
    """Returns the phases that turn Green as Start ends, whatever their red revert."""
    if past.last.frame.mode != START or mode in (START, FLASH):
        return set()
    return {p for p in enabled(past.tables) if rows(past.tables)[p].startup in STARTS_GREEN}


def moves(past: Past, now: TickState, rings: Rings, started: set[int]) -> tuple[set[int], set[int]]:
    """Returns the phases that turn Yellow, and those that turn Green."""
    if started or now.mode in (START, FLASH):
        return set(), started
    if now.mode.kind in modes.GOALS:
        goal = modes.goal(past.tables, now.mode)
        return goal_ends(past, now.mode, goal), goal_begins(past, goal)
    return rings.ending(), rings.beginning()


@dataclass(eq=False)
class Decided:
    """What a tick decides of greens, from the past before it: the phases that turn Green as Start ends, those that
    turn Yellow, those that turn Green."""

    past: Past
    now: TickState
    rings: Rings
    started: set[int]
    ended: set[int]
    begun: set[int]


def decided(past: Past, drift: Drift) -> Decided:
    """Returns what the tick that comes decides."""
    now = tick_state(past, drift)
    rings = rings_seen(past, now)
    started = start_up_phases(past, now.mode)
    return Decided(past, now, rings, started, *moves(past, now, rings, started))


def moment_of(at: Decided) -> Moment:
    """Returns the moment that a tick gives by what it decides."""
    past, last, now = at.past, at.past.last, at.now
    over = {p: colour for p in last.frame.lights.clearing if (colour := runs_out(past, p)) is not None}
    lights = last.frame.lights.changed(
        {**over, **dict.fromkeys(at.ended, Colour.YELLOW), **dict.fromkeys(at.begun, Colour.GREEN)}
    )
    mode = modes.reached(past.tables, now.mode, lights)
    bare = Frame(lights, last.frame.signals, mode, now.counter, now.target, past.version)
    crossing = Crossing(past, lights, mode, bare.is_local_zero(last.frame), bool(at.started), at.rings)
    goal = modes.goal(past.tables, now.mode) if now.mode.kind in modes.GOALS else None
    frame = Frame(lights, signals_after(crossing, goal), mode, now.counter, now.target, past.version)
    return moment(past, now, at.rings, frame)


def moment(past: Past, now: TickState, rings: Rings, frame: Frame) -> Moment:
    """Returns the moment of a tick by its frame and what it saw."""
    last, lights, signals = past.last, past.last.frame.lights, past.last.frame.signals
    ring_of = {p: rows(past.tables)[p].ring for p in frame.lights.on}
    last_on, latest_on = on_last(last, frame, ring_of)
    stage = stage_of(frame.mode)
    return Moment(
        number=now.number,
        frame=frame,
        tables=past.tables,
        clock=now.clock,
        command=now.command,
        commanded=now.commanded,
        calls=calls.after_frame(past.told.calls, frame),
        places=now.places,
        colour_began=began(last.colour_began, lights.of, frame.lights.of, now.number),
        signal_began=began(last.signal_began, signals.of, frame.signals.of, now.number),
        quiet=rings.quiet,
        opposed=rings.opposed,
        preempts=now.preempts,
        last_on=last_on,
        latest_on=latest_on,
        cycle=now.cycle,
        mode_run=last.mode_run + 1 if frame.mode == last.frame.mode else 1,
        stage_run=last.stage_run + 1 if stage and stage == stage_of(last.frame.mode) else int(stage > 0),
        held_run=held_for(last, frame),
    )
