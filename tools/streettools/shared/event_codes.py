"""The codes of an event log: those of the Indiana Traffic Signal Hi Resolution Data Logger Enumerations that these
tools write or read. docs/EVENTS.md says what each means here, and where the meaning is in doubt."""

from typing import NamedTuple

PHASE_ON, BEGIN_GREEN, GAP_OUT, MAX_OUT, FORCE_OFF, GREEN_TERMINATION = 0, 1, 4, 5, 6, 7
BEGIN_YELLOW, END_YELLOW, BEGIN_RED_CLEARANCE, END_RED_CLEARANCE, PHASE_INACTIVE = 8, 9, 10, 11, 12
BEGIN_WALK, BEGIN_PEDESTRIAN_CLEARANCE, BEGIN_DONT_WALK, BARRIER_TERMINATION = 21, 22, 23, 31
DETECTOR_OFF, DETECTOR_ON, PEDESTRIAN_DETECTOR_ON = 81, 82, 90
PREEMPT_INPUT_ON, PREEMPT_INPUT_OFF, PREEMPT_ENTRY, PREEMPT_TRACK, PREEMPT_DWELL, PREEMPT_EXIT = (
    102, 104, 105, 106, 107, 111
)  # fmt: skip
PRIORITY_CHECK_IN, PRIORITY_CHECK_OUT = 112, 115
PATTERN_CHANGE, CYCLE_LENGTH_CHANGE, OFFSET_LENGTH_CHANGE, CYCLE_STATE_CHANGE = 131, 132, 133, 150
SPLIT_CHANGE = 133
"""The code of a phase's split is this with the phase's number added: 134 for phase 1."""
FLASH_STATUS_CHANGE = 173

FREE, IN_STEP, ADDING, SUBTRACTING, DWELLING, LOCAL_ZERO, BEGIN_PICKUP = range(7)
"""The states of code 150."""
FREE_PATTERN, FLASH_PATTERN = 254, 255
"""The patterns of code 131 that aren't patterns."""
NOT_FLASH, AUTOMATIC_FLASH = 2, 3
"""Two of the states of code 173, those of unitFlashStatus in NTCIP 1202."""


class Code(NamedTuple):
    """A code: its name in the enumerations, and the least and the greatest parameter that it may have."""

    name: str
    least: int
    most: int


PHASE, PREEMPT, REQUEST, SECONDS, BYTE = (1, 16), (1, 8), (1, 255), (0, 65_535), (0, 255)
CODES: dict[int, Code] = {
    PHASE_ON: Code("Phase On", *PHASE),
    BEGIN_GREEN: Code("Phase Begin Green", *PHASE),
    GAP_OUT: Code("Phase Gap Out", *PHASE),
    MAX_OUT: Code("Phase Max Out", *PHASE),
    FORCE_OFF: Code("Phase Force Off", *PHASE),
    GREEN_TERMINATION: Code("Phase Green Termination", *PHASE),
    BEGIN_YELLOW: Code("Phase Begin Yellow Clearance", *PHASE),
    END_YELLOW: Code("Phase End Yellow Clearance", *PHASE),
    BEGIN_RED_CLEARANCE: Code("Phase Begin Red Clearance", *PHASE),
    END_RED_CLEARANCE: Code("Phase End Red Clearance", *PHASE),
    PHASE_INACTIVE: Code("Phase Inactive", *PHASE),
    BEGIN_WALK: Code("Pedestrian Begin Walk", *PHASE),
    BEGIN_PEDESTRIAN_CLEARANCE: Code("Pedestrian Begin Clearance", *PHASE),
    BEGIN_DONT_WALK: Code("Pedestrian Begin Solid Don't Walk", *PHASE),
    BARRIER_TERMINATION: Code("Barrier Termination", *BYTE),
    DETECTOR_OFF: Code("Detector Off", *SECONDS),
    DETECTOR_ON: Code("Detector On", *SECONDS),
    PEDESTRIAN_DETECTOR_ON: Code("PedDetector On", *BYTE),
    PREEMPT_INPUT_ON: Code("Preempt (Call) Input On", *PREEMPT),
    PREEMPT_INPUT_OFF: Code("Preempt (Call) Input Off", *PREEMPT),
    PREEMPT_ENTRY: Code("Preempt Entry Started", *PREEMPT),
    PREEMPT_TRACK: Code("Preemption Begin Track Clearance", *PREEMPT),
    PREEMPT_DWELL: Code("Preemption Begin Dwell Service", *PREEMPT),
    PREEMPT_EXIT: Code("Preemption Begin Exit Interval", *PREEMPT),
    PRIORITY_CHECK_IN: Code("TSP Check In", *REQUEST),
    PRIORITY_CHECK_OUT: Code("TSP Check Out", *REQUEST),
    PATTERN_CHANGE: Code("Coord Pattern Change", *BYTE),
    CYCLE_LENGTH_CHANGE: Code("Cycle Length Change", *SECONDS),
    OFFSET_LENGTH_CHANGE: Code("Offset Length Change", *SECONDS),
    **{SPLIT_CHANGE + phase: Code(f"Split {phase} Change", *SECONDS) for phase in range(1, 17)},
    CYCLE_STATE_CHANGE: Code("Coord Cycle State Change", *BYTE),
    FLASH_STATUS_CHANGE: Code("Unit Flash Status Change", *BYTE),
}
"""The codes that `look events` writes and that `log` reads."""

UNUSED = frozenset((
    2, 3, 13, 14, 15, 20, *range(32, 36), *range(41, 50), *range(61, 73), *range(83, 90), 91, 92, 101, 103, 108, 109,
    110, 113, 114, 116, 117, 118, 119, *range(151, 173), *range(174, 186), *range(200, 206),
))  # fmt: skip
"""Codes that controllers are known to write, which nothing here uses: they are counted, and not reported as unknown."""

OF_PHASES = frozenset(
    (*range(PHASE_ON, PHASE_INACTIVE + 1), BEGIN_WALK, BEGIN_PEDESTRIAN_CLEARANCE, BEGIN_DONT_WALK, DETECTOR_OFF,
     DETECTOR_ON, PEDESTRIAN_DETECTOR_ON)
)  # fmt: skip
"""The codes whose parameter is a phase in the logs that `look events` writes."""
