"""The object identifiers that the tools use: those of MIB-2 (RFC 3418), of NTCIP 1201 and 1202, and of the profile
(mibs/ARTERIAL-PROFILE-MIB). Every other module reads them here. A test compares those of the profile with its MIB."""

from .ber import Arcs
from .tables import Cell

ENTERPRISES: Arcs = (1, 3, 6, 1, 4, 1)
SYSTEM: Arcs = (1, 3, 6, 1, 2, 1, 1)
ASC, GLOBAL = ENTERPRISES + (1206, 4, 2, 1), ENTERPRISES + (1206, 4, 2, 6)
"""The objects of signal controllers, NTCIP 1202, and those of all devices, NTCIP 1201."""
OWN = ENTERPRISES + (32473, 1)
"""The objects of the profile that aren't those of a standard."""

# the tables that a download changes

ENTRIES = {
    "phase": ASC + (1, 2, 1), "pattern": ASC + (4, 7, 1), "split": ASC + (4, 9, 1), "preempt": ASC + (6, 2, 1),
}  # fmt: skip
"""The entry of each table: a column and the row follow."""
SEQUENCE_ENTRY = ASC + (7, 3, 1)
SEQUENCE_DATA = SEQUENCE_ENTRY + (3,)
CORRECTION = ASC + (4, 2, 0)
UNIT = {1: CORRECTION} | {column: OWN + (3, column - 1, 0) for column in range(2, 9)}
"""The object of each column of the unit."""
DETECTOR_ENTRY = ASC + (2, 2, 1)

# what a cabinet displays, and its orders

STATUS, CONTROL = ASC + (4, 10, 0), ASC + (4, 14, 0)
STATUS_GROUP = ASC + (1, 4, 1)
CLOCK, COUNTER_OF_CYCLE, TARGET, MODE = (OWN + (2, number, 0) for number in range(1, 5))
STATE, BEGIN, ID, PART, TOTAL, FINISH, OUTCOME, DETAIL, ROW = (OWN + (1, number, 0) for number in range(1, 10))
"""A download: what a master sets, in its order, and the outcome."""
VERSION = OWN + (1, 10, 0)
REQUEST, CANCEL = OWN + (4, 1, 0), OWN + (4, 2, 0)
REQUEST_STATES = OWN + (4, 3, 1)

# what only the front answers

GLOBAL_TIME, TRANSACTION = GLOBAL + (3, 1, 0), GLOBAL + (2, 1, 0)
VERIFY_STATUS, VERIFY_ERROR = GLOBAL + (2, 6, 0), GLOBAL + (2, 7, 0)
PHASE_CONTROL, PREEMPT_CONTROL, DETECTOR_GROUP = ASC + (1, 5, 1), ASC + (6, 3, 1), ASC + (2, 4, 1)
VEH_CALL, PED_CALL, PREEMPT_STATE = PHASE_CONTROL + (6,), PHASE_CONTROL + (7,), PREEMPT_CONTROL + (2,)


def object_of(cell: Cell) -> Arcs:
    """Returns the object that holds a cell."""
    match cell:
        case ("unit", column):
            return UNIT[column]
        case ("sequence", number, ring):
            return (*SEQUENCE_DATA, number, ring)
    table, *row, column = cell
    return (*ENTRIES[table], column, *row)


def dotted(arcs: Arcs) -> str:
    """Returns an object identifier as texts have it."""
    return ".".join(map(str, arcs))
