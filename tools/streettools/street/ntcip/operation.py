"""What the unit, coordination, rings and preempts do, from what a cabinet shows and from its tables."""

from ...shared.ber import Arcs, Field
from ...shared.cells import PREEMPTS, RINGS
from ...shared.oids import ASC, ENTRIES, STATUS_GROUP, UNIT
from ...shared.tables import ALL
from .pdus import whole
from .reads import Front, Read, constant, rows

MINIMUM, REVERT, OPTIONS, RING = 4, 10, 21, 22
"""Columns of the phase table."""
MIN_GREEN, EXTENSION, GREEN_REST, YELLOW, RED_CLEAR, RED_REST = 0, 1, 3, 4, 5, 6
NOT_ACTIVE, CALLED = 2, 3
STAGES = {"e": 4, "t": 5, "d": 6, "x": 8}
"""The states of a preempt that runs: entry, track service, dwell, exit."""
BACKUP, FORCE = UNIT[5], UNIT[7]
FLOATING, FIXED = 2, 3
CALLS = [STATUS_GROUP + (column, group) for group in (1, 2) for column in (8, 9)]


def of_phase(column: int, phase: int) -> Arcs:
    """Returns a cell of the phase table."""
    return ENTRIES["phase"] + (column, phase)


async def backup_time(front: Front) -> Field:
    """Returns the seconds without a command after which the cabinet runs free."""
    (seconds,) = await front.side.numbers(BACKUP)
    return whole(seconds)


async def red_revert(front: Front) -> Field:
    """Returns the least red revert of the enabled phases, in tenths of a second."""
    options = await front.side.numbers(*(of_phase(OPTIONS, it) for it in ALL))
    enabled = [phase for phase, bits in zip(ALL, options) if bits & 1]
    times = await front.side.numbers(*(of_phase(REVERT, it) for it in enabled)) if enabled else [0]
    return whole(min(times))


async def force_mode(front: Front) -> Field:
    """Returns floating (2) or fixed (3)."""
    (mode,) = await front.side.numbers(FORCE)
    return whole(FLOATING if mode == 2 else FIXED)


def ring(number: int) -> Read:
    """Returns what reads the status of a ring."""

    async def read(front: Front) -> Field:
        colours = front.street.shown.frame(front.cabinet).vehicles
        rings = await front.side.numbers(*(of_phase(RING, it) for it in ALL))
        on = [phase for phase, its in zip(ALL, rings) if its == number and colours[phase - 1] != "R"]
        if not on:
            return whole(RED_REST)
        colour = colours[on[0] - 1]
        return whole(await green(front, on[0]) if colour == "G" else YELLOW if colour == "Y" else RED_CLEAR)

    return read


async def green(front: Front, phase: int) -> int:
    """Returns the status of a ring with a green phase: whether its minimum is over, and a call of another waits."""
    frame = front.street.shown.frame(front.cabinet)
    minimum, *calls = await front.side.numbers(of_phase(MINIMUM, phase), *CALLS)
    if front.street.session.taken - frame.since[phase - 1] < 10 * minimum:
        return MIN_GREEN
    called = calls[0] | calls[1] | (calls[2] | calls[3]) << 8
    waits = any(called >> it - 1 & 1 and frame.vehicles[it - 1] != "G" for it in ALL)
    return EXTENSION if waits else GREEN_REST


def preempt_state(number: int) -> Read:
    """Returns what reads the state of a preempt."""

    async def read(front: Front) -> Field:
        mode = front.street.shown.frame(front.cabinet).mode
        if mode[0] == "P" and mode[1:-1] == str(number):
            return whole(STAGES[mode[-1]])
        return whole(CALLED if front.street.inputs.is_on("preempt", front.cabinet, number) else NOT_ACTIVE)

    return read


def operation() -> dict[Arcs, Read]:
    """Returns the objects."""
    fixed = {(3, 1): 0, (3, 2): 1, (4, 1): 0, (4, 6): 2}
    made = {ASC + (*arcs, 0): constant(whole(value)) for arcs, value in fixed.items()}
    made |= {ASC + (3, 3, 0): backup_time, ASC + (3, 4, 0): red_revert, ASC + (4, 4, 0): force_mode}
    made |= rows(ASC + (7, 6, 1), len(RINGS), {1: ring})
    return made | rows(ENTRIES["preempt"], len(PREEMPTS), {16: preempt_state})
