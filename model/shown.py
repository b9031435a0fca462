"""What a cabinet shows to management software: the value of each object that can be read.

mibs/ARTERIAL-PROFILE-MIB; docs/SNMP-CONFORMANCE.md.
"""

from collections.abc import Callable
from dataclasses import dataclass

from model.controller import Controller
from model.names import NAMES, Group, GroupName, Index, Oid, RequestState, Scalar
from model.cells import Cell
from model.priority import State
from model.stage import Answer, Stage
from model.words import CODES, Colour, Kind, Signal

NOTHING_PLANNED, FLASHING = 254, 255


@dataclass(frozen=True)
class Shown:
    """A cabinet's controller and its stage, at the time at which a message is answered."""

    controller: Controller
    stage: Stage


def is_in_group(shown: Shown, column: Group, p: int) -> bool:
    """Tells whether a phase has its bit in a column of its group."""
    frame, calls = shown.controller.past.last.frame, shown.controller.past.told.calls
    colour, signal = frame.lights.of[p], frame.signals.of[p]
    return {
        Group.REDS: colour in (Colour.RED, Colour.CLEAR),
        Group.YELLOWS: colour is Colour.YELLOW,
        Group.GREENS: colour is Colour.GREEN,
        Group.DONT_WALKS: signal is Signal.DONT,
        Group.PED_CLEARS: signal is Signal.FLASH,
        Group.WALKS: signal is Signal.WALK,
        Group.VEH_CALLS: p in calls.locked,
        Group.PED_CALLS: p in calls.pressed,
        Group.PHASE_ONS: p in frame.lights.on,
    }[column]


def group_value(shown: Shown, name: GroupName) -> int:
    """Returns the bits of a group of eight phases, the lowest phase in the lowest bit."""
    first = 8 * (name.group - 1) + 1
    return sum(1 << bit for bit in range(8) if is_in_group(shown, name.column, first + bit))


def pattern_status(shown: Shown) -> int:
    """Returns the pattern that runs or is sought, 255 in flash, else 254."""
    mode = shown.controller.past.last.frame.mode
    if mode.kind in (Kind.SEEK, Kind.COORD):
        return mode.number
    return FLASHING if mode.kind is Kind.FLASH else NOTHING_PLANNED


def outcome_detail(shown: Shown) -> tuple[int, int]:
    """Returns the details of the last outcome, in addition to its code: the expected part, or rule and row."""
    last = shown.stage.last
    if last is None:
        return 0, 0
    if last.answer is Answer.WRONG_PART:
        return last.expected, 0
    return (last.broken.rule, last.broken.row) if last.broken else (0, 0)


SCALARS: dict[Scalar, Callable[[Shown], int]] = {
    Scalar.PATTERN_STATUS: pattern_status,
    Scalar.PATTERN_CONTROL: lambda shown: shown.controller.command_shown,
    Scalar.STAGE_STATE: lambda shown: shown.stage.standing.value,
    Scalar.OUTCOME: lambda shown: shown.stage.last.answer.value if shown.stage.last else 0,
    Scalar.OUTCOME_RULE: lambda shown: outcome_detail(shown)[0],
    Scalar.OUTCOME_ROW: lambda shown: outcome_detail(shown)[1],
    Scalar.VERSION: lambda shown: shown.controller.past.version,
    Scalar.CLOCK: lambda shown: shown.controller.clock_shown,
    Scalar.COUNTER: lambda shown: shown.controller.past.last.frame.counter,
    Scalar.TARGET: lambda shown: shown.controller.past.last.frame.target,
    Scalar.MODE_CODE: lambda shown: CODES[shown.controller.past.last.frame.mode.kind],
}


def value_of(oid: Oid, shown: Shown) -> int | bytes:
    """Returns the value of an object that can be read."""
    name = NAMES[oid]
    if isinstance(name, Cell):
        return shown.controller.past.tables.at(name)
    if isinstance(name, Index):
        return name.value
    if isinstance(name, GroupName):
        return group_value(shown, name)
    if isinstance(name, RequestState):
        place = shown.controller.past.told.places.get(name.number)
        return (place.state if place else State.NONE).value
    return SCALARS[name](shown)
