"""The detectors of vehicles and of people, one of each for each phase, and the volumes and occupancies of vehicles."""

from ...shared.ber import Arcs, Field
from ...shared.oids import ASC, DETECTOR_ENTRY
from ...shared.tables import ALL
from .pdus import whole
from .reads import Front, Read, constant, kept, rows
from .shown import PERIOD

PEOPLE, REPORT = ASC + (2, 7, 1), ASC + (2, 5)
CALL, PASSAGE, OCCUPANCY, VOLUME = 128, 16, 2, 1
"""The options of a vehicle detector."""
WITHOUT, WITHOUT_PEOPLE = (5, 6, 7, 8, 9, 10, 11, 13, 14), (3, 4, 5, 6)
"""The columns of what no detector has, 0 therefore: switched phase, delay, extension, tests, alarms."""


def its_number(row: int) -> Read:
    """Returns what reads the number of a row."""
    return constant(whole(row))


def nothing(row: int) -> Read:
    """Returns what reads 0."""
    return constant(whole(0))


def options(row: int) -> Read:
    """Returns what reads the options: calls, extends the green, and is counted."""
    return constant(whole(CALL | PASSAGE | OCCUPANCY | VOLUME))


def counted(column: int, row: int) -> Read:
    """Returns what reads the volume (0) or the occupancy (1) of a detector in the last period."""
    return kept(lambda front: whole(front.street.shown.volumes.last.get((front.cabinet, row), (0, 0))[column]))


async def sequence(front: Front) -> Field:
    """Returns the number of the last period."""
    return whole(front.street.shown.volumes.sequence)


def vehicles() -> dict[Arcs, Read]:
    """Returns the objects."""
    made = rows(DETECTOR_ENTRY, len(ALL), {1: its_number, 2: options, 4: its_number})
    made |= rows(DETECTOR_ENTRY, len(ALL), {column: nothing for column in WITHOUT})
    made |= rows(PEOPLE, len(ALL), {1: its_number, 2: its_number})
    made |= rows(PEOPLE, len(ALL), {column: nothing for column in WITHOUT_PEOPLE})
    made |= rows(REPORT + (4, 1), len(ALL), {1: lambda row: counted(0, row), 2: lambda row: counted(1, row)})
    made |= {ASC + (2, 6, 0): constant(whole(len(ALL))), REPORT + (3, 0): constant(whole(len(ALL)))}
    return made | {REPORT + (1, 0): sequence, REPORT + (2, 0): constant(whole(PERIOD))}
