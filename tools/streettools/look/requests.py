"""The priority requests of a cabinet, from the replies of a trace: how long each is live, and what it did to greens.

docs/TICK.md, "Priority": a live request for a coordinated phase may be active. The active one holds the coordinated
phases past their force points, at most for the extension limit, and ends the greens of other phases that are served."""

from dataclasses import dataclass, field

from streettools.shared.answers import Cancelled, Order, Requested
from streettools.shared.cabinet import Cabinet, changes, mode_of
from streettools.shared.tables import ALL
from streettools.shared.trace_records import Frame

EXTENSION_LIMIT = 6
"""The column of the unit with the extension limit, in ticks."""


@dataclass
class Request:
    """A request that was given after the tick `since`; `last` is the last tick at which it is live. It `held` the green
    of its phase for this number of ticks, and `cut` the greens of other phases. `was_green` tells whether its phase was
    green for all of that time."""

    number: int
    phase: int
    rank: tuple[int, int, int, int]
    since: int
    last: int
    held: int = 0
    cut: list[int] = field(default_factory=list)
    was_green: bool = True

    def is_live(self, tick: int) -> bool:
        """Tells whether it is live at a tick."""
        return self.since < tick <= self.last

    def effect(self) -> str:
        """Returns what it did, in words."""
        cut = sorted(set(self.cut))
        ended = f"ended the green of phase{'s' * (len(cut) > 1)} {' and '.join(map(str, cut))}" if cut else ""
        held = f"held the green {self.held / 10:.1f} s" if self.held else ""
        nothing = "had no effect: it was green already" if self.was_green else "had no effect"
        return " and ".join(filter(None, (held, ended))) or nothing


class Requests:
    """The requests of a cabinet in the order in which they were given. It takes orders and frames in their order."""

    def __init__(self, cabinet: Cabinet) -> None:
        self.cabinet = cabinet
        self.all: list[Request] = []
        self.recent: list[Request] = []

    def ordered(self, order: Order, tick: int) -> None:
        """Takes an order of a reply after a tick."""
        if not isinstance(order, Requested | Cancelled):
            return
        for it in self.recent:
            if it.number == order.number:
                it.last = min(it.last, tick)
        self.recent = [it for it in self.recent if it.last > it.since]
        if isinstance(order, Requested):
            rank = (order.klass, order.level, tick + order.arrival, order.number)
            frame = self.cabinet.frame
            green = () if frame is None else (phase for phase, it in zip(ALL, frame.vehicles) if it == "G")
            new = Request(order.number, order.phase, rank, tick, tick + order.departure, was_green=order.phase in green)
            self.all.append(new)
            self.recent.append(new)

    def active(self, tick: int, pair: tuple[int, int]) -> Request | None:
        """Returns the request that is active at a tick, in a pattern with these coordinated phases."""
        live = [it for it in self.recent if it.is_live(tick) and it.phase in pair]
        return min(live, key=lambda it: it.rank) if live else None

    def shown(self, frame: Frame) -> None:
        """Takes a frame that the cabinet hasn't taken yet."""
        self.recent = [it for it in self.recent if it.last >= frame.tick - 1]
        before = self.cabinet.frame
        if before is None or not self.recent:
            return
        for phase, was, _ in changes(before.vehicles, frame.vehicles):
            for it in self.recent:
                it.was_green &= it.phase != phase or not it.since < frame.tick <= it.last
            if was == "G":
                self.ended(phase, frame)

    def ended(self, phase: int, frame: Frame) -> None:
        """Takes a green that ends with a frame."""
        mode = mode_of(frame.mode)
        plan = self.cabinet.plan(mode.number) if mode.letter == "C" else None
        if plan is None:
            return
        if phase not in plan.coordinated:
            now = self.active(frame.tick, plan.coordinated)
            if now and self.cabinet.ending(phase, frame) == "priority":
                now.cut.append(phase)
            return
        over, before = frame.counter - plan.force[phase], self.active(frame.tick - 1, plan.coordinated)
        if before is None or before.phase != phase or over <= 0:
            return
        is_at_limit = over == self.cabinet.tables.unit(EXTENSION_LIMIT)
        if is_at_limit or self.active(frame.tick, plan.coordinated) is None:
            before.held += min(over, frame.tick - 1 - before.since)
