"""The names of the front end's objects, what each is and takes, where each name and number comes from, and what is
doubtful about it. Both docs/OBJECTS.md and mibs/ARTERIAL-FRONT-MIB are made from this table."""

from dataclasses import dataclass
from enum import Enum

from ..shared.ber import Arcs
from ..shared.mib import MIB2
from ..shared.oids import (
    ASC, DETECTOR_ENTRY, DETECTOR_GROUP, ENTRIES, GLOBAL, GLOBAL_TIME, PED_CALL, PHASE_CONTROL, PREEMPT_CONTROL,
    PREEMPT_STATE, SYSTEM, TRANSACTION, VEH_CALL, VERIFY_ERROR, VERIFY_STATUS,
)  # fmt: skip


class Source(Enum):
    """Where a name and a number come from."""

    MIB2 = "RFC 3418"
    GLOBAL = "NTCIP 1201, as known to us"
    ASC = "NTCIP 1202, as known to us"


@dataclass(frozen=True)
class Named:
    """An object of the front end: its syntax and its meaning as a MIB has them."""

    name: str
    source: Source
    syntax: str
    text: str
    doubt: str = ""


@dataclass(frozen=True)
class Row:
    """A table of the front end: the name of its row without Entry, its indexes, and what a row is."""

    name: str
    index: str
    text: str


WIDE = {6: "Integer32 (0..65535)"}
"""The syntax of columns that isn't that of the others."""
NUMBER, COLUMN = "the number", "the number of the column"
TEXT, OID, BYTE = "OCTET STRING (SIZE (0..255))", "OBJECT IDENTIFIER", "Integer32 (0..255)"
SYSTEM_TEXTS = (
    "What this is.", "Arterial's own number.", "Hundredths of a second since the session began.", "Empty.",
    "The name of the intersection, or the cabinet's number.", "Empty.", "72: a host with applications.",
)  # fmt: skip


def system() -> dict[Arcs, Named]:
    """Returns the objects of the system group."""
    kinds = (TEXT, OID, "TimeTicks", TEXT, TEXT, TEXT, "Integer32 (0..127)")
    rows = zip(MIB2, kinds, SYSTEM_TEXTS, strict=True)
    return {SYSTEM + (at,): Named(name, Source.MIB2, kind, said) for at, (name, kind, said) in enumerate(rows, 1)}


def most(name: str, what: str, number: int) -> Named:
    """Returns an object that tells how many there are."""
    return Named(name, Source.ASC, f"Integer32 ({number})", f"The number of {what}.")


def of_global(name: str, syntax: str, text: str, doubt: str = "") -> Named:
    """Returns an object of NTCIP 1201."""
    return Named(name, Source.GLOBAL, syntax, text, doubt)


def asc(name: str, syntax: str, text: str, doubt: str = "") -> Named:
    """Returns an object of NTCIP 1202."""
    return Named(name, Source.ASC, syntax, text, doubt)


def index(name: str, last: int) -> Named:
    """Returns an index column, which can be read."""
    return Named(name, Source.ASC, f"Integer32 (1..{last})", "The number of the row. It can be read.")


PEOPLE, REPORT = ASC + (2, 7, 1), ASC + (2, 5)
NO_TEST = "0: detectors aren't tested."
BY_USER = "alarms that a user turns on (docs/STREET.md)."
COLUMNS = {
    2: ("Options", "147: it calls, extends the green, and is counted: volume and occupancy."),
    4: ("CallPhase", "The phase that the detector calls: that of its number."), 5: ("SwitchPhase", "0: none."),
    6: ("Delay", "0."), 7: ("Extend", "0."), 8: ("QueueLimit", "0."), 9: ("NoActivity", NO_TEST),
    10: ("MaxPresence", NO_TEST), 11: ("ErraticCounts", NO_TEST), 13: ("Alarms", "0: it has no alarm."),
    14: ("ReportedAlarms", "0: it has no alarm."),
}  # fmt: skip
"""The columns of vehicleDetectorTable beside the first."""

GLOBALS: dict[Arcs, Named] = {
    GLOBAL + (1, 1): of_global(
        "globalSetIDParameter", "Integer32 (0..65535)", "Changes whenever tables are put in force."
    ),
    GLOBAL + (1, 2): of_global("globalMaxModules", "Integer32 (1)", "The number of modules."),
    GLOBAL + (1, 3, 1, 1): of_global("moduleNumber", "Integer32 (1)", "The number of the row. It can be read."),
    GLOBAL + (1, 3, 1, 2): of_global("moduleDeviceNode", OID, "The node of signal controllers."),
    GLOBAL + (1, 3, 1, 3): of_global("moduleMake", TEXT, "The maker."),
    GLOBAL + (1, 3, 1, 4): of_global("moduleModel", TEXT, "The model."),
    GLOBAL + (1, 3, 1, 5): of_global("moduleVersion", TEXT, "The version of arterial."),
    GLOBAL + (1, 3, 1, 6): of_global("moduleType", "INTEGER { other(1), hardware(2), software(3) }", "Software."),
    TRANSACTION[:-1]: of_global(
        "dbCreateTransaction", "INTEGER { normal(1), transaction(2), verify(3), done(6) }",
        "The state of the transaction. Cells of tables that are set in state transaction are collected; verify tests "
        "them; normal puts valid ones in force.",
        "whether a Set of NORMAL from DONE is what puts tables in force",
    ),
    VERIFY_STATUS[:-1]: of_global(
        "dbVerifyStatus", "INTEGER { notDone(1), doneWithError(2), doneWithNoError(3) }", "What verify found.", NUMBER
    ),
    VERIFY_ERROR[:-1]: of_global("dbVerifyError", TEXT, "Which rule the collected tables break.", NUMBER),
    GLOBAL_TIME[:-1]: of_global("globalTime", "Counter32", "Seconds since 1970. A Set sets the cabinet's clock."),
}  # fmt: skip
TIME, SCHEDULE, EVENT, ACTION = GLOBAL + (3,), GLOBAL + (3, 3, 2, 1), GLOBAL + (3, 3, 5, 1), ASC + (5, 3, 1)
ONE_PLAN = "1 if the scenario's master has a schedule for the cabinet's section, otherwise 0."
TIMES: dict[Arcs, Named] = {
    TIME + (2,): of_global("globalDaylightSaving", "INTEGER { other(1), disableDST(2) }", "Always disableDST."),
    TIME + (3, 1): of_global("maxTimeBaseScheduleEntries", "Integer32 (1)", "The number of schedule entries."),
    SCHEDULE + (1,): of_global("timeBaseScheduleNumber", "Integer32 (1)", "The number of the row. It can be read."),
    SCHEDULE + (2,): of_global("timeBaseScheduleMonth", "Integer32 (0..65535)", "8190: every month."),
    SCHEDULE + (3,): of_global("timeBaseScheduleDay", BYTE, "254: every day of the week."),
    SCHEDULE + (4,): of_global(
        "timeBaseScheduleDate", "Unsigned32", "4294967294: every date.", "whether it is an Unsigned32 or an INTEGER"
    ),
    SCHEDULE + (5,): of_global("timeBaseScheduleDayPlan", "Integer32 (0..1)", ONE_PLAN),
    TIME + (3, 3): of_global("maxDayPlans", "Integer32 (1)", "The number of day plans."),
    TIME + (3, 4): of_global("maxDayPlanEvents", "Integer32 (48)", "The number of events of the day plan."),
    EVENT + (1,): of_global("dayPlanNumber", "Integer32 (1)", "The number of the day plan. It can be read."),
    EVENT + (2,): of_global("dayPlanEventNumber", "Integer32 (1..48)", "The number of the event. It can be read."),
    EVENT + (3,): of_global(
        "dayPlanHour", "Integer32 (0..23)",
        "The hour of an entry of the master's schedule for the cabinet's section; 0 if the event isn't used.",
    ),
    EVENT + (4,): of_global("dayPlanMinute", "Integer32 (0..59)", "Its minute. Seconds are left out."),
    EVENT + (5,): of_global(
        "dayPlanActionNumberOID", OID,
        "The action that commands its pattern: an instance of timebaseAscActionNumber; 0.0 if the event isn't used, or "
        "if no action commands this pattern.",
    ),
    TIME + (3, 6): of_global("dayPlanStatus", "Integer32 (0..1)", ONE_PLAN),
    TIME + (3, 7): of_global("timeBaseScheduleTableStatus", "Integer32 (0..1)", ONE_PLAN, NUMBER),
}  # fmt: skip
ACTIONS: dict[Arcs, Named] = {
    ASC + (5, 1): asc("timebaseAscPatternSync", "Integer32 (0..65535)", "0: cycles are counted from midnight."),
    ASC + (5, 2): most("maxTimebaseAscActions", "actions", 51),
    ACTION + (1,): index("timebaseAscActionNumber", 51),
    ACTION + (2,): asc(
        "timebaseAscPattern", BYTE,
        "The pattern that the action commands: 1 to 48, then 0, 254 (free) and 255 (flash).",
    ),
    ACTION + (3,): asc("timebaseAscAuxillaryFunction", BYTE, "0: there is none."),
    ACTION + (4,): asc("timebaseAscSpecialFunction", BYTE, "0: there is none."),
    ASC + (5, 4): asc(
        "timebaseAscActionStatus", BYTE,
        "The action that is scheduled at the time of the master's clock; 0 without a schedule.",
    ),
}  # fmt: skip
CONFIG, LOG, CLASS = GLOBAL + (4, 2, 1), GLOBAL + (4, 4, 1), GLOBAL + (4, 6, 1)
MODES = (
    "INTEGER { onChange(2), greaterThanValue(3), smallerThanValue(4), hysteresisBound(5), periodic(6), "
    "andedWithValue(7) }"
)
INT, TENTHS = "Integer32", "tenths of a second that the condition lasts"
REPORTS: dict[Arcs, Named] = {
    GLOBAL + (4, 1): of_global("maxEventLogConfigs", "Integer32 (32)", "The number of configurations."),
    CONFIG + (1,): of_global("eventConfigID", "Integer32 (1..32)", "The number of the row. It can be read."),
    CONFIG + (2,): of_global("eventConfigClass", "Integer32 (1..8)", "The class of its events."),
    CONFIG + (3,): of_global("eventConfigMode", MODES, "When there is an event (docs/SNMP-CONFORMANCE.md)."),
    CONFIG + (4,): of_global(
        "eventConfigCompareValue", INT, "The number that is compared; of periodic, the seconds of a period.",
        "the unit of a period",
    ),
    CONFIG + (5,): of_global(
        "eventConfigCompareValue2", INT, f"The other bound of hysteresisBound; otherwise the {TENTHS}.",
        "whether it counts tenths of a second",
    ),
    CONFIG + (6,): of_global("eventConfigCompareOID", OID, "The instance that is compared; 0.0 if there is none."),
    CONFIG + (7,): of_global("eventConfigLogOID", OID, "The instance whose value is logged; 0.0 if there is none."),
    CONFIG + (8,): of_global("eventConfigAction", "INTEGER { disabled(2), log(3) }", "Whether events are looked for."),
    CONFIG + (9,): of_global(
        "eventConfigStatus", "INTEGER { disabled(2), log(3), error(4) }",
        "What the configuration does. error: an object didn't exist, or was not a number, when it was read last.",
        "the values",
    ),
    GLOBAL + (4, 3): of_global("maxEventLogSize", "Integer32 (2040)", "The most rows of the log: 255 for each class."),
    LOG + (1,): of_global("eventLogClass", "Integer32 (1..8)", "The class of the event. It can be read."),
    LOG + (2,): of_global(
        "eventLogNumber", "Integer32 (1..255)", "The number in its class; the oldest event is 1. It can be read.",
        "whether the numbers move if the oldest event goes",
    ),
    LOG + (3,): of_global("eventLogID", "Integer32 (1..32)", "The configuration that found the event."),
    LOG + (4,): of_global("eventLogTime", "Counter32", "globalTime when the event was found."),
    LOG + (5,): of_global(
        "eventLogValue", "Opaque",
        "The value of eventConfigLogOID with its tag and length; NULL in place of one of more than 64 octets, and of "
        "one that doesn't exist.",
    ),
    GLOBAL + (4, 5): of_global("maxEventClasses", "Integer32 (8)", "The number of classes."),
    CLASS + (1,): of_global("eventClassNumber", "Integer32 (1..8)", "The number of the row. It can be read."),
    CLASS + (2,): of_global("eventClassLimit", BYTE, "The most rows of the class. The oldest go if there are more."),
    CLASS + (3,): of_global(
        "eventClassClearTime", "Counter32", "A Set clears the events of the class that aren't later than this time."
    ),
    CLASS + (4,): of_global("eventClassDescription", TEXT, "What a central calls the class."),
    CLASS + (5,): of_global("eventClassNumRowsInLog", BYTE, "The rows of the class."),
    CLASS + (6,): of_global(
        "eventClassNumEvents", "Counter32", "The events that were found, from 0 again after 65535.",
        "whether it is a Counter, and whether 65535 is its last number",
    ),
}  # fmt: skip
PHASES: dict[Arcs, Named] = {
    ASC + (1, 1): most("maxPhases", "phases", 16),
    ASC + (1, 3): most("maxPhaseGroups", "groups of eight phases", 2),
    PHASE_CONTROL + (1,): index("phaseControlGroupNumber", 2),
    VEH_CALL: asc(
        "phaseControlGroupVehCall", BYTE, "Which vehicle detectors are on. A Set turns them on and off.", COLUMN
    ),
    PED_CALL: asc(
        "phaseControlGroupPedCall", BYTE, "The bits that were set last. A bit that turns on presses the button.", COLUMN
    ),
}  # fmt: skip
DETECTORS: dict[Arcs, Named] = {
    ASC + (2, 1): most("maxVehicleDetectors", "vehicle detectors, one for each phase", 16),
    DETECTOR_ENTRY + (1,): index("vehicleDetectorNumber", 16),
    **{DETECTOR_ENTRY + (at,): asc(f"vehicleDetector{name}", WIDE.get(at, BYTE), text)
       for at, (name, text) in COLUMNS.items()},
    ASC + (2, 3): most("maxVehicleDetectorStatusGroups", "groups of eight vehicle detectors", 2),
    DETECTOR_GROUP + (1,): index("vehicleDetectorStatusGroupNumber", 2),
    DETECTOR_GROUP + (2,): asc("vehicleDetectorStatusGroupActive", BYTE, "Which vehicle detectors are on."),
    DETECTOR_GROUP + (3,): asc("vehicleDetectorStatusGroupAlarms", BYTE, "0: no detector has an alarm."),
    REPORT + (1,): asc("volumeOccupancySequence", BYTE, "The number of the last period, from 0 again after 255."),
    REPORT + (2,): asc("volumeOccupancyPeriod", "Integer32 (60)", "The seconds of a period. They are fixed."),
    REPORT + (3,): most("activeVolumeOccupancyDetectors", "rows of volumeOccupancyTable", 16),
    REPORT + (4, 1, 1): asc("detectorVolume", BYTE, "How many vehicles came onto the detector in the last period."),
    REPORT + (4, 1, 2): asc(
        "detectorOccupancy", BYTE, "How long the detector was on in the last period, in half percents.",
        "above 200, the codes of faults, it has none",
    ),
    ASC + (2, 6): most("maxPedestrianDetectors", "pedestrian detectors, one for each phase", 16),
    PEOPLE + (1,): index("pedestrianDetectorNumber", 16),
    PEOPLE + (2,): asc("pedestrianDetectorCallPhase", BYTE, "The phase that the button calls: that of its number."),
    PEOPLE + (3,): asc("pedestrianDetectorNoActivity", BYTE, NO_TEST),
    PEOPLE + (4,): asc("pedestrianDetectorMaxPresence", BYTE, NO_TEST),
    PEOPLE + (5,): asc("pedestrianDetectorErraticCounts", BYTE, NO_TEST),
    PEOPLE + (6,): asc("pedestrianDetectorAlarms", BYTE, "0: no detector has an alarm."),
}  # fmt: skip
UNIT: dict[Arcs, Named] = {
    ASC + (3, 1): asc("unitStartUpFlash", BYTE, "0: start-up is 6 s of red, without flash."),
    ASC + (3, 2): asc("unitAutoPedestrianClear", "INTEGER { disable(1), enable(2) }", "Always disable."),
    ASC + (3, 3): asc(
        "unitBackupTime", "Integer32 (0..65535)",
        "The seconds without a command after which the cabinet runs free. Only a download of backupTime changes it.",
    ),
    ASC + (3, 4): asc(
        "unitRedRevert", BYTE, "The least phaseRedRevert of the enabled phases, in tenths of a second.",
        "a unit has a red revert of its own; here only phases have one",
    ),
    ASC + (3, 5): asc("unitControlStatus", "INTEGER { systemControl(2) }", "Always systemControl."),
    ASC + (3, 6): asc("unitFlashStatus", "INTEGER { notFlash(2), automatic(3) }", "Whether the cabinet is in flash."),
    ASC + (3, 7): asc("unitAlarmStatus2", BYTE, f"32 on the way to the offset; 1 to 16: {BY_USER}"),
    ASC + (3, 8): asc("unitAlarmStatus1", BYTE, f"128 coordinated, 64 free, 32 flash; 1 to 32: {BY_USER}"),
    ASC + (3, 9): asc("shortAlarmStatus", BYTE, f"1 preempt, 2 flash; 2 to 128: {BY_USER}"),
}  # fmt: skip
COORD: dict[Arcs, Named] = {
    ASC + (4, 1): asc("coordOperationalMode", BYTE, "0, automatic: systemPatternControl decides."),
    ASC + (4, 4): asc(
        "coordForceMode", "INTEGER { other(1), floating(2), fixed(3) }", "forceMode, in the numbers of NTCIP 1202."
    ),
    ASC + (4, 6): asc(
        "patternTableType", "INTEGER { other(1), patterns(2), offset3(3), offset5(4) }", "Always patterns."
    ),
    ASC + (4, 5): most("maxPatterns", "patterns", 48),
    ASC + (4, 8): most("maxSplits", "splits", 32),
    ASC + (4, 11): asc(
        "localFreeStatus", "INTEGER { other(1), notFree(2), commandFree(3), transitionFree(4), badPlan(7) }",
        "Whether and why the cabinet is in free operation.",
    ),
    ASC + (4, 12): asc(
        "coordCycleStatus", BYTE, "The whole seconds that are left of the cycle, 0 if no pattern runs.",
        "the direction in which it counts (here: the seconds left)",
    ),
    ASC + (4, 13): asc("coordSyncStatus", BYTE, "The whole seconds since local zero."),
}  # fmt: skip
PREEMPTS: dict[Arcs, Named] = {
    ENTRIES["preempt"] + (16,): asc(
        "preemptState",
        "INTEGER { other(1), notActive(2), notActiveWithCall(3), entryStarted(4), trackService(5), dwell(6), "
        "linkActive(7), exitStarted(8), maxPresence(9) }",
        "What the preempt does, by the mode and its input. linkActive and maxPresence don't occur.", COLUMN,
    ),
    ASC + (6, 1): most("maxPreempts", "preempts", 8),
    PREEMPT_CONTROL + (1,): index("preemptControlNumber", 8),
    PREEMPT_STATE: asc(
        "preemptControlState", "Integer32 (0..1)", "Whether the input of the preempt is on. A Set turns it on or off.",
        COLUMN,
    ),
}  # fmt: skip
RINGS: dict[Arcs, Named] = {
    ASC + (7, 1): most("maxRings", "rings", 2),
    ASC + (7, 2): most("maxSequences", "sequences", 16),
    ASC + (7, 6, 1, 1): asc(
        "ringStatus", BYTE,
        "What the ring does: 0 minimum green, 1 extension, 3 green rest, 4 yellow change, 5 red clearance, 6 red rest. "
        "Green that has had its minimum is extension if another phase has a call, otherwise rest.",
        "the bits for gap out, max out and force-off are never set, and 2, maximum, doesn't occur",
    ),
}  # fmt: skip
NAMED: dict[Arcs, Named] = {
    **system(), **GLOBALS, **TIMES, **REPORTS, **PHASES, **DETECTORS, **UNIT, **COORD, **ACTIONS, **PREEMPTS, **RINGS
}  # fmt: skip
"""The objects by their arcs without the last, in the order of a walk."""
ROWS: dict[Arcs, Row] = {
    GLOBAL + (1, 3, 1): Row("module", "moduleNumber", "A module: here one, the software."),
    SCHEDULE: Row("timeBaseSchedule", "timeBaseScheduleNumber", "An entry of the schedule: here one."),
    EVENT: Row("timeBaseDayPlan", "dayPlanNumber, dayPlanEventNumber", "An event of the day plan."),
    CONFIG: Row("eventLogConfig", "eventConfigID", "When an event is found, and what is logged then."),
    LOG: Row("eventLog", "eventLogClass, eventLogNumber", "An event that was found."),
    CLASS: Row("eventClass", "eventClassNumber", "A class of events."),
    ACTION: Row("timebaseAscAction", "timebaseAscActionNumber", "A pattern that an event may command."),
    PHASE_CONTROL: Row("phaseControlGroup", "phaseControlGroupNumber", "The calls of eight phases."),
    DETECTOR_GROUP: Row(
        "vehicleDetectorStatusGroup", "vehicleDetectorStatusGroupNumber", "Eight vehicle detectors."
    ),
    DETECTOR_ENTRY: Row("vehicleDetector", "vehicleDetectorNumber", "A vehicle detector: that of a phase."),
    REPORT + (4, 1): Row("volumeOccupancy", "vehicleDetectorNumber", "What a vehicle detector has counted."),
    PEOPLE: Row("pedestrianDetector", "pedestrianDetectorNumber", "A push button: that of a phase."),
    ASC + (7, 6, 1): Row("ringStatus", "sequenceRingNumber", "What a ring does."),
    PREEMPT_CONTROL: Row("preemptControl", "preemptControlNumber", "The input of a preempt."),
}  # fmt: skip
"""The tables of which the front end has all columns that there are, by the arcs of their rows."""
GROUPS: dict[Arcs, str] = {
    GLOBAL: "global", GLOBAL + (1,): "globalConfiguration", GLOBAL + (2,): "globalDBManagement",
    GLOBAL + (3,): "globalTimeManagement", GLOBAL + (3, 3): "timebase", GLOBAL + (4,): "globalReport",
    ASC + (5,): "timebaseAsc", ASC + (2,): "detector", ASC + (2, 5): "volumeOccupancyReport", ASC + (3,): "unit",
}  # fmt: skip
"""The nodes above them that ARTERIAL-PROFILE-MIB doesn't have, each below one that is known."""
