"""Reads the objects that the event log of a cabinet compares, and gives it their values.

The objects are compared once in each second of the street's time, or less often if time advances by more at once. A
value that comes and goes in between isn't seen. What is read belongs to the record of the street, as any message does.
"""

import contextlib

from ...shared.ber import Arcs, Field
from ...shared.oids import CLOCK
from ..street import Hearer
from .eventlog import SECOND
from .objects import OBJECTS
from .reads import Front
from .side import Silent, number_in

MOST_BINDS = 32
"""The most bindings that a cabinet takes in a message."""


async def values(front: Front, names: list[Arcs]) -> dict[Arcs, Field | None]:
    """Returns the values of objects, of the front or of the cabinet; None for one that doesn't exist."""
    found: dict[Arcs, Field | None]
    found = {name: await OBJECTS.read(front, name) for name in names if OBJECTS.has(front, name)}
    others = list(dict.fromkeys(name for name in names if name not in found))
    for at in range(0, len(others), MOST_BINDS):
        found |= await front.side.get(others[at : at + MOST_BINDS])
    return found


async def compare(front: Front) -> None:
    """Compares the objects of the event log, if that is pending."""
    log = front.log
    if not log.is_active():
        return
    async with log.order:
        ticks = front.street.session.taken
        if log.is_pending(ticks):
            with contextlib.suppress(Silent):
                await compare_now(front, ticks)


async def compare_now(front: Front, ticks: int) -> None:
    """Compares the objects at a tick, and adds the events that are found, with their time and the logged value."""
    log = front.log
    found = log.found(ticks, await values(front, log.names()))
    if not found:
        return
    names = {it: log.configs[it].logged for it in found}
    logged = await values(front, [CLOCK, *names.values()])
    seconds = front.street.clocks.seconds(front.cabinet, number_in(logged[CLOCK]))
    for it, name in names.items():
        log.add(it, seconds, logged[name])


class Watch(Hearer):
    """Lets the event logs of a street compare their objects as time advances."""

    called = "the event log"

    def __init__(self) -> None:
        self.fronts: list[Front] = []

    async def advanced(self) -> None:
        """Time has advanced: at most a second goes by until the next comparison if events may be found."""
        for front in self.fronts:
            await compare(front)
        self.stride = SECOND if any(it.log.is_active() for it in self.fronts) else Hearer.stride
