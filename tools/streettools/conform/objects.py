"""The objects of NTCIP 1202 that a test reads and sets, and the display that a reply to a poll contains."""

from collections.abc import Iterable
from dataclasses import dataclass

from ..shared.ber import GAUGE, INTEGER, TIME_TICKS, Arcs
from ..shared.oids import (
    ASC, CONTROL, ENTRIES, GLOBAL_TIME, PED_CALL, PREEMPT_STATE, REQUEST, STATUS, STATUS_GROUP, SYSTEM, TRANSACTION,
    VEH_CALL,
)  # fmt: skip

UP_TIME = SYSTEM + (3, 0)
SYNC_STATUS = ASC + (4, 13, 0)
"""The seconds since local zero."""
REDS, YELLOWS, GREENS, DONT_WALKS, PED_CLEARS, WALKS, VEH_CALLS, PED_CALLS, PHASE_ONS = range(2, 11)
GROUPS = (1, 2)
GROUP = 8
FLASH, FREE = 255, 254
"""Commands of systemPatternControl, and the values of coordPatternStatus that are not patterns."""
STAGES = {4: "e", 5: "t", 6: "d", 8: "x"}
"""preemptState of entry, track, dwell and exit, as the letters of a mode."""
NUMBERS = (INTEGER, GAUGE, TIME_TICKS)

NAMES = {
    UP_TIME: "sysUpTime.0", GLOBAL_TIME: "globalTime.0", STATUS: "coordPatternStatus.0", CONTROL:
    "systemPatternControl.0", SYNC_STATUS: "coordSyncStatus.0", TRANSACTION: "dbCreateTransaction.0",
    REQUEST: "priorityRequest.0",
}  # fmt: skip
COLUMNS = {
    VEH_CALL: "phaseControlGroupVehCall", PED_CALL: "phaseControlGroupPedCall", PREEMPT_STATE: "preemptControlState",
    ENTRIES["preempt"] + (16,): "preemptState",
}  # fmt: skip


def group(column: int, number: int) -> Arcs:
    """Returns a column of the phase status groups in a group."""
    return STATUS_GROUP + (column, number)


def stage_of(preempt: int) -> Arcs:
    """Returns the object with the state of a preempt."""
    return ENTRIES["preempt"] + (16, preempt)


def name_of(arcs: Arcs) -> str:
    """Returns the name of an object as people write it; its numbers if it isn't one of a test."""
    from ..shared import mib  # takes a while
    from ..shared.oids import dotted

    if arcs in NAMES:
        return NAMES[arcs]
    column = COLUMNS.get(arcs[:-1])
    if column:
        return f"{column}.{arcs[-1]}"
    known = mib.names()
    cut = next((at for at in range(len(arcs), 6, -1) if arcs[:at] in known), None)
    return dotted(arcs) if cut is None else ".".join((known[arcs[:cut]], *map(str, arcs[cut:])))


@dataclass(frozen=True)
class Display:
    """The display of a controller: a letter for each phase as in an F line, `?` if its bits contradict each other; the
    pattern that runs (254 free, 255 flash), the seconds since local zero; None for what it doesn't report. `stage` is
    the stage of a preempt as a mode, "" if none is served."""

    vehicles: str
    pedestrians: str
    pattern: int | None = None
    sync: int | None = None
    stage: str = ""

    def is_dark(self) -> bool:
        """Tells whether no phase is on, and nothing is shown to pedestrians."""
        return set(self.vehicles) <= {"R"} and set(self.pedestrians) <= {"D"}


def bits(values: dict[Arcs, int], column: int, groups: Iterable[int]) -> int | None:
    """Returns a column of all groups as one number; None if the device doesn't have it."""
    found = [values.get(group(column, it)) for it in groups]
    if not found or None in found:
        return None
    return sum((it or 0) << GROUP * at for at, it in enumerate(found))


def colour(red: bool | None, yellow: bool, green: bool, on: bool | None) -> str:
    """Returns the letter of a phase."""
    if yellow + green + bool(red) > 1:
        return "?"
    if green or yellow:
        return "G" if green else "Y"
    return "C" if on else "R"


def signal(dont: bool | None, flashing: bool, walk: bool) -> str:
    """Returns the letter of the pedestrian signal of a phase."""
    if flashing and walk or walk and dont:
        return "?"
    return "W" if walk else "F" if flashing else "D"


def display_of(values: dict[Arcs, int], groups: tuple[int, ...]) -> Display:
    """Returns the display that the values of a poll are."""
    column = {it: bits(values, it, groups) for it in range(REDS, PHASE_ONS + 1)}

    def has(which: int, at: int) -> bool | None:
        held = column[which]
        return None if held is None else bool(held >> at & 1)

    places = range(GROUP * len(groups))
    vehicles = "".join(
        colour(has(REDS, it), bool(has(YELLOWS, it)), bool(has(GREENS, it)), has(PHASE_ONS, it)) for it in places
    )
    pedestrians = "".join(
        signal(has(DONT_WALKS, it), bool(has(PED_CLEARS, it)), bool(has(WALKS, it))) for it in places
    )
    served = [(n, STAGES[state]) for n in range(1, 9) if (state := values.get(stage_of(n))) in STAGES]
    stage = f"P{served[0][0]}{served[0][1]}" if served else ""
    return Display(vehicles, pedestrians, values.get(STATUS), values.get(SYNC_STATUS), stage)
