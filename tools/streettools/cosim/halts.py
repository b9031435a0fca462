"""Which vehicles have stopped on the approaches of signals, second by second: queues and stops are counted from it."""

from collections.abc import Iterable
from typing import Any, NamedTuple

from .drive import call
from .network import CROSSING, Network, edge_of

STANDING = 0.1
"""SUMO's own bound: a vehicle that is slower than this, in metres a second, has stopped."""


class Halt(NamedTuple):
    """Vehicles that have stopped on a lane of an edge at a second, and not at a stop of their line."""

    second: float
    edge: str
    vehicles: list[str]
    lane: str = ""


def approaches(network: Network, signals: Iterable[str]) -> dict[str, list[str]]:
    """Returns for each edge that leads to one of the signals the edges of its approach: itself, and those before it as
    far as there is one way to come and no signal."""
    inward: dict[str, list[str]] = {}
    for edge in network.edges.values():
        inward.setdefault(edge.end, []).append(edge.name)
    signalled = {link.approach for rows in network.links.values() for link in rows if link.turn != CROSSING}
    found = {}
    for name in signals:
        for link in network.links[name]:
            if link.turn == CROSSING or link.approach in found:
                continue
            chain = [link.approach]
            while True:
                coming = inward.get(network.edges[chain[0]].start, ())
                before = [it for it in coming if not is_back(network, it, chain[0])]
                if len(before) != 1 or before[0] in signalled or before[0] in chain:
                    break
                chain.insert(0, before[0])
            found[link.approach] = chain
    return found


def is_back(network: Network, one: str, other: str) -> bool:
    """Tells whether an edge is the other direction of another."""
    a, b = network.edges[one], network.edges[other]
    return (a.start, a.end) == (b.end, b.start)


class Halts:
    """Looks at the lanes of approaches, and at further ones whose stopped vehicles another part needs."""

    def __init__(self, network: Network, signals: Iterable[str], sumo: Any, further: Iterable[str] = ()) -> None:
        edges = {it for chain in approaches(network, signals).values() for it in chain}
        driven = [lane for lane in network.lanes if lane not in network.sidewalks and edge_of(lane) in edges]
        self.lanes, self.names = [(lane, edge_of(lane)) for lane in driven], driven
        self.further = [lane for lane in dict.fromkeys(further) if lane not in set(driven)]
        self.found: list[Halt] = []
        self.standing: dict[str, list[str]] = {}
        """The stopped vehicles on each lane by the last look, including those at stops of their lines."""
        self.without_stop: set[str] = set()
        self.sumo = sumo
        self.halting = call(sumo, "lane", "getLastStepHaltingNumber")
        self.there = call(sumo, "lane", "getLastStepVehicleIDs")
        self.speed = call(sumo, "vehicle", "getSpeed")
        self.stops = call(sumo, "vehicle", "getStops")

    def look(self, second: float) -> None:
        """Keeps the vehicles that have stopped now."""
        without_stop, standing, found = self.without_stop, {}, self.found
        for (lane, edge), count in zip(self.lanes, map(self.halting, self.names)):
            if count:
                own = standing[lane] = self.who(lane, count)
                if [it for it in own if it not in without_stop]:
                    own = [it for it in own if not self.is_at_stop(it)]
                found.append(Halt(second, edge, own, lane))
        for lane in self.further:
            if count := self.halting(lane):
                standing[lane] = self.who(lane, count)
        self.standing = standing

    def who(self, lane: str, count: int) -> list[str]:
        """Returns the stopped vehicles on a lane, of which there are `count`; they are looked for from its end on."""
        there = self.there(lane)
        if count == len(there):
            return list(there)
        speed, found = self.speed, []
        for vehicle in reversed(there):
            if speed(vehicle) < STANDING:
                found.append(vehicle)
                if len(found) == count:
                    break
        return found

    def is_at_stop(self, vehicle: str) -> bool:
        """Tells whether a vehicle is at a stop of its line. If it has no stop ahead, SUMO isn't asked about it
        again."""
        if vehicle in self.without_stop:
            return False
        if not self.stops(vehicle, 1):
            self.without_stop.add(vehicle)
            return False
        return self.sumo.vehicle.isStopped(vehicle)
