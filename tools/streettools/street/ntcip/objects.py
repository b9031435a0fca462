"""The objects that the front answers itself, in addition to those of the cabinet.

Names and numbers are those of the public standards as they are known here: MIB-2's system group (RFC 3418), NTCIP 1201
and NTCIP 1202. If that is in doubt, docs/CLIENTS.md says so.
"""

from ...shared.ber import COUNTER, NAME, TIME_TICKS, Arcs, Field, name_content
from ...shared.cells import BYTE, PATTERNS, PREEMPTS, RINGS, SEQUENCES, SPLITS, Numbers
from ...shared.oids import (
    ASC, CLOCK, CONTROL, COUNTER_OF_CYCLE, DETECTOR_GROUP, GLOBAL, GLOBAL_TIME, MODE, OWN, PED_CALL, PHASE_CONTROL,
    PREEMPT_CONTROL, PREEMPT_STATE, STATUS, SYSTEM, TRANSACTION, VEH_CALL, VERIFY_ERROR,
    VERIFY_STATUS, VERSION as VERSION_OF_TABLES,
)  # fmt: skip
from ...shared.tables import ALL
from ...shared.version import VERSION
from ..acts import SHORT, SHORT_ALSO, UNIT_1, UNIT_2, bits
from .instances import Objects, fixed
from .judging import Kind, Seconds, columns
from .operation import operation
from .pdus import text, whole
from .reads import Front, Read, by_stage, constant, kept
from .report import log_rows, report, settable
from .timebase import timebase
from .vehicles import vehicles

FLASH, COORD, SEEK = 6, 4, 3
FREE, PREEMPTED = 2, (7, 8, 9, 10)
ALARMS = {COORD: 128, FREE: 64, FLASH: 32}
GROUP = 8
"""The phases or detectors of a group."""
COUNTER_END = 1 << 32
SET_IDS, SESSION_STEP = 1 << 16, 4099
"""How many values globalSetIDParameter has, and by how much it differs in the next session."""


async def up_time(front: Front) -> Field:
    """Returns the hundredths of a second since the session began."""
    return whole(10 * front.street.session.taken, TIME_TICKS)


async def global_time(front: Front) -> Field:
    """Returns the cabinet's clock as seconds since 1970."""
    (clock,) = await front.side.numbers(CLOCK)
    return whole(front.street.clocks.seconds(front.cabinet, clock) % COUNTER_END, COUNTER)


async def set_id(front: Front) -> Field:
    """Returns a number that changes with the tables in force, and also if the street begins a new session."""
    (version,) = await front.side.numbers(VERSION_OF_TABLES)
    return whole((version + SESSION_STEP * front.street.renewals) % SET_IDS)


async def flash_status(front: Front) -> Field:
    """Returns notFlash (2) or automatic (3)."""
    (mode,) = await front.side.numbers(MODE)
    return whole(3 if mode == FLASH else 2)


def user_alarms(front: Front) -> set[str]:
    """Returns the alarms of the cabinet that a user has turned on."""
    return front.street.alarms.get(front.cabinet, set())


async def alarms(front: Front) -> Field:
    """Returns unitAlarmStatus1: coordination is active (128), free (64), flash (32), and what a user has set."""
    (mode,) = await front.side.numbers(MODE)
    return whole(ALARMS.get(mode, 0) | bits(user_alarms(front), UNIT_1))


async def more_alarms(front: Front) -> Field:
    """Returns unitAlarmStatus2: on the way to the offset (32), and what a user has set."""
    (mode,) = await front.side.numbers(MODE)
    return whole((32 if mode == SEEK else 0) | bits(user_alarms(front), UNIT_2))


async def short_alarms(front: Front) -> Field:
    """Returns shortAlarmStatus: preempt (1), flash (2), and what a user has set."""
    (mode,) = await front.side.numbers(MODE)
    own = 1 if mode in PREEMPTED else 2 if mode == FLASH else 0
    flash_or_stop = [bit for name, bit in SHORT_ALSO.items() if name in user_alarms(front)]
    for bit in flash_or_stop:
        own |= bit
    return whole(own | bits(user_alarms(front), SHORT))


async def free_status(front: Front) -> Field:
    """Returns notFree (2), commandFree (3), transitionFree (4), badPlan (7) or other (1)."""
    mode, command = await front.side.numbers(MODE, CONTROL)
    if command == 254 and front.is_undefined:
        return whole(7)
    if mode == COORD:
        return whole(2)
    if mode == SEEK:
        return whole(4)
    return whole(3 if command in (0, 254) else 1)


async def sync_status(front: Front) -> Field:
    """Returns the whole seconds since local zero."""
    (counter,) = await front.side.numbers(COUNTER_OF_CYCLE)
    return whole(counter // 10)


async def cycle_status(front: Front) -> Field:
    """Returns the whole seconds that are left of the cycle, 0 if no pattern runs."""
    pattern, counter = await front.side.numbers(STATUS, COUNTER_OF_CYCLE)
    if pattern not in PATTERNS:
        return whole(0)
    (cycle,) = await front.side.numbers(ASC + (4, 7, 1, 2, pattern))
    return whole(max(0, cycle - counter // 10))


def scalars() -> dict[Arcs, Read]:
    """Returns the scalar objects."""
    words = {
        SYSTEM + (1, 0): text(b"arterial, a simulated signal cabinet"),
        SYSTEM + (2, 0): Field(NAME, name_content(OWN)),
        SYSTEM + (4, 0): text(b""),
        SYSTEM + (6, 0): text(b""),
        SYSTEM + (7, 0): whole(72),
        GLOBAL + (1, 2, 0): whole(1),
        ASC + (1, 1, 0): whole(len(ALL)),
        ASC + (1, 3, 0): whole(len(ALL) // GROUP),
        ASC + (2, 1, 0): whole(len(ALL)),
        ASC + (2, 3, 0): whole(len(ALL) // GROUP),
        ASC + (3, 5, 0): whole(2),
        ASC + (4, 5, 0): whole(len(PATTERNS)),
        ASC + (4, 8, 0): whole(len(SPLITS)),
        ASC + (6, 1, 0): whole(len(PREEMPTS)),
        ASC + (7, 1, 0): whole(len(RINGS)),
        ASC + (7, 2, 0): whole(len(SEQUENCES)),
    }
    made = {name: constant(value) for name, value in words.items()}
    made[SYSTEM + (5, 0)] = kept(lambda front: text(front.street.name_of(front.cabinet).encode()))
    made[GLOBAL + (1, 1, 0)] = set_id
    made |= {SYSTEM + (3, 0): up_time, GLOBAL_TIME: global_time, ASC + (3, 6, 0): flash_status}
    made |= {ASC + (3, 7, 0): more_alarms, ASC + (3, 8, 0): alarms, ASC + (3, 9, 0): short_alarms}
    made |= {ASC + (4, 11, 0): free_status, ASC + (4, 12, 0): cycle_status, ASC + (4, 13, 0): sync_status}
    made[TRANSACTION] = by_stage(lambda transaction: whole(transaction.state))
    made[VERIFY_STATUS] = by_stage(lambda transaction: whole(transaction.verified))
    made[VERIFY_ERROR] = by_stage(lambda transaction: text(transaction.error))
    return made


def modules() -> dict[Arcs, Read]:
    """Returns the row of the one module: number, node, make, model, version, type (software)."""
    own = text(VERSION.encode())
    row = [whole(1), Field(NAME, name_content(ASC)), text(b"arterial"), text(b"bench"), own, whole(3)]
    return {GLOBAL + (1, 3, 1, column, 1): constant(value) for column, value in enumerate(row, 1)}


def detectors(group: int) -> Read:
    """Returns a reader of the vehicle detectors of a group that are on, as bits."""
    return kept(lambda front: whole(front.street.inputs.bits(front.cabinet, group - 1)))


def people(group: int) -> Read:
    """Returns a reader of the bits of the calls of people that were set last."""
    return kept(lambda front: whole(front.people[group - 1]))


def preempt(number: int) -> Read:
    """Returns a reader of whether the input of a preempt is on."""
    return kept(lambda front: whole(int(front.street.inputs.is_on("preempt", front.cabinet, number))))


def calls() -> dict[Arcs, Read]:
    """Returns the groups by which calls are put in, and those that show detectors."""
    made: dict[Arcs, Read] = {}
    for group in (1, 2):
        made[PHASE_CONTROL + (1, group)] = constant(whole(group))
        made[VEH_CALL + (group,)] = detectors(group)
        made[PED_CALL + (group,)] = people(group)
        made[DETECTOR_GROUP + (1, group)] = constant(whole(group))
        made[DETECTOR_GROUP + (2, group)] = detectors(group)
        made[DETECTOR_GROUP + (3, group)] = constant(whole(0))
    return made


def preempts() -> dict[Arcs, Read]:
    """Returns the states of the inputs of preempts."""
    made: dict[Arcs, Read] = {PREEMPT_CONTROL + (1, n): constant(whole(n)) for n in range(1, 9)}
    for n in range(1, 9):
        made[PREEMPT_STATE + (n,)] = preempt(n)
    return made


OBJECTS = Objects(
    fixed({**scalars(), **modules(), **calls(), **preempts(), **operation(), **vehicles(), **timebase(), **report()})
    | log_rows()
)
WRITABLE: dict[Arcs, Kind] = {GLOBAL_TIME: Seconds(), TRANSACTION: BYTE, **settable()}
"""What each object takes that can be set."""
WRITABLE |= {column + (group,): BYTE for column in (VEH_CALL, PED_CALL) for group in (1, 2)}
WRITABLE |= {PREEMPT_STATE + (n,): Numbers(0, 1) for n in range(1, 9)}
TYPES = columns() | set(OBJECTS.types)
"""The object types that can be read, of the cabinet and of the front."""
