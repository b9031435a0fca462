"""What an act sends to the device: the messages, and which of them has the effect."""

import time
from typing import Any

from ..cabinet.messages import GET, SET
from ..shared.oids import CONTROL, GLOBAL_TIME, PED_CALL, PREEMPT_STATE, REQUEST, TRANSACTION, VEH_CALL, VERIFY_STATUS
from ..shared.oids import object_of
from . import steps
from .channels import Channel
from .device import Asked, Bindings
from .objects import GROUP
from .steps import Act

DAY = 86_400
NORMAL, TRANSACT, VERIFY = 1, 2, 3
VALID = 3
"""dbVerifyStatus of tables without an error."""
CELLS_AT_ONCE = 12
BY_CHANNEL = (steps.VEH, steps.PED, steps.PREEMPT)


def bindings_of(cells: list[list[Any]]) -> Bindings:
    """Returns the bindings that set cells."""
    return [(object_of(tuple(it)), bytes.fromhex(new) if isinstance(new, str) else new) for *it, new in cells]


def cells_sent(cells: list[list[Any]]) -> list[Asked]:
    """Returns the Sets of cells."""
    bindings = bindings_of(cells)
    return [Asked(SET, bindings[at : at + CELLS_AT_ONCE]) for at in range(0, len(bindings), CELLS_AT_ONCE)]


class Hands:
    """The inputs that a test holds, and the messages by which they change."""

    def __init__(self, channel: Channel | None = None) -> None:
        self.channel = channel
        self.vehicles: dict[int, int] = {}
        """The bits of phaseControlGroupVehCall, by group."""

    def released(self) -> None:
        """Takes all inputs as off."""
        self.vehicles = {}

    def messages(self, act: Act, cells: list[list[Any]]) -> tuple[list[Asked], int]:
        """Returns the messages of an act, and the place of the one with its effect. `cells` are those of its load. An
        input of a second channel has no messages."""
        if self.channel is not None and act.kind in BY_CHANNEL:
            return [], 0
        group, bit = (act.number - 1) // GROUP + 1, 1 << (act.number - 1) % GROUP
        match act.kind:
            case steps.VEH:
                held = self.vehicles.get(group, 0)
                self.vehicles[group] = held | bit if act.on else held & ~bit
                return [Asked(SET, [(VEH_CALL + (group,), self.vehicles[group])])], 0
            case steps.PED:
                return [Asked(SET, [(PED_CALL + (group,), it)]) for it in (bit, 0)], 0
            case steps.PREEMPT:
                return [Asked(SET, [(PREEMPT_STATE + (act.number,), int(act.on))])], 0
            case steps.PATTERN:
                return [Asked(SET, [(CONTROL, act.number)])], 0
            case steps.CLOCK:
                return [Asked(SET, [(GLOBAL_TIME, int(time.time()) // DAY * DAY + act.number)], again=False)], 0
            case steps.PRIORITY:
                return [Asked(SET, [(REQUEST, act.request)], again=False)], 0
            case steps.STAGE:
                sent = [Asked(SET, [(TRANSACTION, TRANSACT)]), *cells_sent(cells)]
            case steps.VERIFY:
                sent = [Asked(SET, [(TRANSACTION, VERIFY)]), Asked(GET, [(VERIFY_STATUS, None)])]
            case steps.FORCE | steps.DISCARD:
                sent = [Asked(SET, [(TRANSACTION, NORMAL)])]
            case _:
                sent = []
        return sent, len(sent) - 1

    def do(self, act: Act) -> None:
        """Does an act by the second channel."""
        assert self.channel is not None
        if act.kind == steps.VEH:
            self.channel.vehicle(act.number, act.on)
        elif act.kind == steps.PED:
            self.channel.button(act.number)
        else:
            self.channel.preempt(act.number, act.on)

    def is_by_channel(self, act: Act) -> bool:
        """Tells whether an act uses the second channel."""
        return self.channel is not None and act.kind in BY_CHANNEL
