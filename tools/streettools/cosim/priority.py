"""Buses that ask for priority: a request by distance and speed, repeated if the arrival moves, cancelled when the bus
has passed. A bus that is to stop before the stop line asks when it leaves the stop.
"""

from collections.abc import Iterator
from dataclasses import dataclass
from typing import Any

from ..cabinet.messages import SET, message, reply_of
from ..shared.oids import CANCEL, REQUEST
from .mapping import Map, MappedBus
from .network import Network, edge_of
from .records import Request
from .watched import Watched

NUMBERS = range(1, 11)
MOST_TICKS = 65_535
SLOWEST = 5.0
"""The speed in metres a second that is assumed for a bus that is slower."""
MOVED = 3.0
"""By how many seconds an arrival moves before the request is repeated."""


@dataclass
class Asking:
    """A live request: its vehicle, its cabinet, its number and phase, when it was made, and the expected arrival of the
    bus."""

    vehicle: str
    cabinet: int
    number: int
    phase: int
    made: float
    arrival: float


class Priority:
    """The requests of all buses, as frames of a session."""

    def __init__(self, street: Map, network: Network, community: str) -> None:
        self.buses = street.buses
        self.community = community.encode()
        self.cabinets = {it.id: it.cabinet for it in street.signals}
        self.phases: dict[tuple[str, int], int] = {}
        for signal in street.signals:
            served = {name: it.phases()[0] for it in signal.movements for name in it.links}
            self.phases.update({(signal.id, link.index): served[link.name] for link in network.links[signal.id]})
        self.live: dict[tuple[str, int], Asking] = {}
        self.serial: dict[int, int] = {}
        self.done: list[Request] = []
        self.refusals = 0

    def names(self) -> set[str]:
        """Returns the classes and types that ask."""
        return {name for bus in self.buses for name in bus.vehicles}

    def look(self, sumo: Any, watched: Watched, second: float) -> Iterator[bytes]:
        """Yields the requests and cancels of this second."""
        if not watched.kinds and not self.live:
            return
        wanted: dict[tuple[str, int], tuple[MappedBus, int, float]] = {}
        for bus in self.buses:
            for vehicle in watched.of(bus.vehicles):
                if ahead := self.ahead(sumo, vehicle, bus):
                    cabinet, phase, seconds = ahead
                    wanted[vehicle, cabinet] = bus, phase, second + seconds
        for key in [key for key in self.live if key not in wanted]:
            yield self.taken(self.live.pop(key), second)
        for (vehicle, cabinet), (bus, phase, arrival) in wanted.items():
            asking = self.live.get((vehicle, cabinet))
            if asking is None:
                number = self.free(cabinet)
                if number is None:
                    continue
                asking = Asking(vehicle, cabinet, number, phase, second, arrival)
                self.live[vehicle, cabinet] = asking
            elif abs(arrival - asking.arrival) < MOVED and second < asking.arrival + bus.slack / 2:
                continue
            asking.arrival = arrival
            yield self.given(asking, bus, second)

    def ahead(self, sumo: Any, vehicle: str, bus: MappedBus) -> tuple[int, int, float] | None:
        """Returns the cabinet and phase before which a bus asks, and in how many seconds it comes; None if it
        needn't."""
        for signal, index, distance, _ in sumo.vehicle.getNextTLS(vehicle):
            if signal not in self.cabinets:
                continue
            if distance > bus.ahead or self.is_to_stop(sumo, vehicle):
                return None
            speed = max(sumo.vehicle.getSpeed(vehicle), SLOWEST)
            return self.cabinets[signal], self.phases[signal, index], distance / speed
        return None

    def is_to_stop(self, sumo: Any, vehicle: str) -> bool:
        """Tells whether a bus still has a stop on the edge where it is."""
        if sumo.vehicle.isStopped(vehicle):
            return True
        return any(edge_of(stop.lane) == sumo.vehicle.getRoadID(vehicle) for stop in sumo.vehicle.getStops(vehicle, 1))

    def free(self, cabinet: int) -> int | None:
        """Returns a number that no live request of a cabinet has, None if all are taken."""
        used = {it.number for it in self.live.values() if it.cabinet == cabinet}
        return next((it for it in NUMBERS if it not in used), None)

    def frame(self, cabinet: int, name: tuple[int, ...], value: bytes | int) -> bytes:
        """Returns the request of a Set."""
        self.serial[cabinet] = self.serial.get(cabinet, 0) + 1
        octets = message(SET, self.serial[cabinet], [(name, value)], self.community)
        return b"frame %d priority %b" % (cabinet, octets.hex().encode())

    def given(self, asking: Asking, bus: MappedBus, second: float) -> bytes:
        """Returns the request by which a bus asks."""
        arrival = min(max(round(10 * (asking.arrival - second)), 0), MOST_TICKS)
        departure = min(arrival + round(10 * bus.slack), MOST_TICKS)
        head = bytes([asking.number, bus.number_class, bus.level, asking.phase])
        value = head + arrival.to_bytes(2, "big") + departure.to_bytes(2, "big")
        return self.frame(asking.cabinet, REQUEST, value)

    def taken(self, asking: Asking, second: float) -> bytes:
        """Returns the request by which a bus takes its request back, and keeps it as done."""
        self.kept(asking, second)
        return self.frame(asking.cabinet, CANCEL, asking.number)

    def kept(self, asking: Asking, cancelled: float | None) -> None:
        """Keeps a request that is over."""
        self.done.append(
            Request(asking.vehicle, asking.cabinet, asking.number, asking.phase, asking.made, cancelled)
        )

    def heard(self, lines: list[bytes]) -> None:
        """Counts the replies that refuse."""
        for line in lines:
            if line[:2] == b"A " and line.split(b" ")[2] == b"3":
                digits = line.rpartition(b" ")[2]
                self.refusals += digits == b"-" or reply_of(bytes.fromhex(digits.decode())).status != 0

    def end(self) -> None:
        """Keeps the requests that are live at the end."""
        for asking in self.live.values():
            self.kept(asking, None)
        self.live = {}
