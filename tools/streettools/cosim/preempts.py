"""Trains and fire engines: the inputs of preempts. An input is on while a vehicle of the kind is on one of its edges,
or on its way to a stop line and near; and until its end has left the edge or the stop line.
"""

from collections.abc import Iterator
from typing import Any

from .mapping import Map, MappedPreempt
from .network import Network
from .watched import Watched


class Preempts:
    """The inputs of all preempts."""

    def __init__(self, street: Map, network: Network) -> None:
        self.items = street.preempts
        self.on: set[int] = set()
        """The places of the inputs that are on."""
        self.left: dict[tuple[MappedPreempt, str], float] = {}
        """The vehicles reported to an input, with the metres driven at which the head has left the edge, or passes the
        line."""
        self.served: dict[tuple[str, int], tuple[int, tuple[int, ...]]] = {}
        """The cabinet and the phases of each link."""
        for signal in street.signals:
            phases = {name: it.phases() for it in signal.movements for name in it.links}
            for link in network.links[signal.id]:
                self.served[signal.id, link.index] = signal.cabinet, phases[link.name]

    def names(self) -> set[str]:
        """Returns the classes and types that are reported."""
        return {name for item in self.items for name in item.vehicles}

    def look(self, sumo: Any, watched: Watched) -> Iterator[bytes]:
        """Yields the requests for inputs that have changed."""
        for place, item in enumerate(self.items):
            on = any([self.is_there(sumo, item, vehicle) for vehicle in watched.of(item.vehicles)])
            if on != (place in self.on):
                self.on ^= {place}
                yield b"preempt %d %d %b" % (item.cabinet, item.number, b"on" if on else b"off")

    def is_there(self, sumo: Any, item: MappedPreempt, vehicle: str) -> bool:
        """Tells whether some of a vehicle is on the edges of an input, or near its stop line."""
        driven = sumo.vehicle.getDistance(vehicle)
        if item.edges and sumo.vehicle.getRoadID(vehicle) in item.edges:
            self.left[item, vehicle] = driven
            return True
        if item.ahead is not None:
            metres = self.before_line(sumo, item, vehicle)
            if metres is not None:
                self.left[item, vehicle] = driven + metres
                return True
        last = self.left.get((item, vehicle))
        return last is not None and driven < last + sumo.vehicle.getLength(vehicle)

    def before_line(self, sumo: Any, item: MappedPreempt, vehicle: str) -> float | None:
        """Returns how many metres a vehicle has to the stop line of an input, None if it isn't near one."""
        for signal, index, metres, _ in sumo.vehicle.getNextTLS(vehicle):
            if metres > item.ahead:
                return None
            cabinet, phases = self.served.get((signal, index), (0, ()))
            if cabinet == item.cabinet and (not item.phases or set(item.phases) & set(phases)):
                return metres
        return None
