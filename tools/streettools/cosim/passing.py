"""What SUMO wrote of its vehicles, as trips with the passages of stop lines.

A vehicle's arrival at a stop line is the second at which it would have come there had it driven freely since it passed
the signal before (or since it started); so the loss of getting away from the signal before counts here.
"""

import bisect
import pathlib
import xml.etree.ElementTree as xml
from collections import defaultdict
from collections.abc import Iterator
from typing import NamedTuple

from .halts import Halt
from .mapping import Map
from .network import CROSSING, Network, Part
from .records import Kind, Passage, Trip
from .signals import GREEN

KINDS = {"bus": Kind.BUS, "coach": Kind.BUS, "tram": Kind.BUS, "emergency": Kind.EMERGENCY}
RAIL = ("rail", "rail_urban", "rail_electric", "rail_fast")
UNKNOWN_SPEED = 1000.0
Stood = set[tuple[str, str]]
"""Vehicles that stopped, each with the edge."""


class Served(NamedTuple):
    """What serves a turn at a signal: the signal, its cabinet, the movement, the phase, a link's place."""

    signal: str
    cabinet: int
    movement: str
    phase: int | None
    place: int


class Way(NamedTuple):
    """A turn of a vehicle: what serves it, the edges on the way there, when it began that way and when it passed the
    stop line (None if it didn't), and the parts of the way: edges, and the junctions before them."""

    served: Served
    edges: tuple[str, ...]
    entered: float
    passed: float | None
    parts: tuple[Part, ...]


class Routes:
    """The turns of routes over mapped signals."""

    def __init__(self, street: Map, network: Network) -> None:
        self.network = network
        self.turns: dict[tuple[str, str], Served] = {}
        for signal in street.signals:
            links = {link.name: link for link in network.links[signal.id]}
            for movement in signal.movements:
                for link in (links[name] for name in movement.links if links[name].turn != CROSSING):
                    served = Served(signal.id, signal.cabinet, movement.name, movement.phase, link.index)
                    self.turns.setdefault((link.approach, link.end.rpartition("_")[0]), served)

    def parts(self, edges: list[str]) -> list[Part]:
        """Returns the parts of a way along some edges, with the junctions between them."""
        parts = [self.own(edges[0])]
        for one, other in zip(edges, edges[1:]):
            parts += [it for it in [self.network.inner.get((one, other))] if it]
            parts.append(self.own(other))
        return parts

    def own(self, edge: str) -> Part:
        """Returns an edge as a part of a way."""
        return Part(self.network.edges[edge].length, self.network.edges[edge].speed)

    def ways(self, edges: list[str], exits: list[float | None], depart: float, start: float) -> Iterator[Way]:
        """Yields the turns of a route over mapped signals, in order; `exits` are when each edge was left, `start` is
        the place on the first edge where the vehicle began."""
        first, entered = 0, depart
        for k, (edge, end) in enumerate(zip(edges, edges[1:])):
            if (edge, end) not in self.turns:
                continue
            parts = self.parts(edges[max(first - 1, 0) : k + 1])
            if first == 0:
                parts[0] = Part(max(parts[0].metres - start, 0.0), parts[0].speed)
            else:
                del parts[0]
            left = exits[k]
            yield Way(self.turns[edge, end], tuple(edges[first : k + 1]), entered, left, tuple(parts))
            if left is None:
                return
            first, entered = k + 1, left


def exits_of(text: str | None, count: int, begin: float) -> list[float | None]:
    """Returns when each edge was left, None if it wasn't."""
    seconds = [float(it) for it in (text or "").split()]
    found = [it - begin if it >= 0 else None for it in seconds[:count]]
    return found + [None] * (count - len(found))


def routes_of(path: pathlib.Path) -> Iterator[tuple[str, list[str], str | None, float]]:
    """Yields for each vehicle in SUMO's file of routes its name, its edges, when it left them, and when it started."""
    for _, element in xml.iterparse(path):
        if element.tag == "vehicle":
            route = list(element.iter("route"))[-1]
            yield element.get("id"), route.get("edges").split(), route.get("exitTimes"), float(element.get("depart"))
            element.clear()


class Traffic:
    """Trips, passages and queues of a run."""

    def __init__(self, street: Map, network: Network, history: dict[str, list[tuple[float, str]]]) -> None:
        self.routes = Routes(street, network)
        self.network = network
        self.history = {name: ([it[0] for it in rows], [it[1] for it in rows]) for name, rows in history.items()}
        self.ways: dict[str, list[Way]] = {}
        self.stops: dict[tuple[str, str], float] = defaultdict(float)
        """How many seconds a vehicle spent at stops of its line on an edge."""

    def read_stops(self, path: pathlib.Path) -> None:
        """Reads SUMO's file of stops."""
        for _, element in xml.iterparse(path):
            if element.tag == "stopinfo":
                spent = float(element.get("ended")) - float(element.get("started"))
                self.stops[element.get("id"), element.get("lane").rpartition("_")[0]] += max(spent, 0.0)

    def was_green(self, served: Served, second: float) -> bool:
        """Tells whether a link had green at a second."""
        seconds, states = self.history[served.signal]
        at = bisect.bisect_right(seconds, second) - 1
        return at >= 0 and states[at][served.place] in GREEN

    def read_routes(self, path: pathlib.Path, begin: float, starts: dict[str, "Begun"]) -> None:
        """Reads SUMO's file of routes; `starts` is where and how late vehicles began. The way to the first stop line
        begins when a vehicle wanted to start."""
        for name, edges, exits, depart in routes_of(path):
            left = exits_of(exits, len(edges), begin)
            begun = starts.get(name, Begun(0.0, 0.0))
            self.ways[name] = list(self.routes.ways(edges, left, depart - begun.late - begin, begun.place))

    def wait(self, pending: dict[str, list[str]], path: pathlib.Path, end: float) -> None:
        """Takes the routes of vehicles that wait to get in at the end of a run; their wait is in SUMO's file of
        trips."""
        for name, begun in starts_of(path).items() if pending else ():
            if begun.place < 0 and name in pending:
                edges = pending[name]
                self.ways[name] = list(self.routes.ways(edges, [None] * len(edges), end - begun.late, 0.0))

    def reaches(self, vehicle: str, way: Way, factor: float, most: float) -> float:
        """Returns when a vehicle would pass a stop line that drives at `factor` times the limit, and at `most` at the
        most."""
        free = sum(it.metres / min(it.speed * factor, most) for it in way.parts)
        return way.entered + free + sum(self.stops.get((vehicle, it), 0.0) for it in way.edges)

    def waits(self, vehicle: str, factor: float, most: float, end: float) -> tuple[int, str, float] | None:
        """Returns the stop line at which a vehicle waited when the run ended, None if it didn't."""
        ways = self.ways.get(vehicle, ())
        if not ways or ways[-1].passed is not None:
            return None
        at = round(self.reaches(vehicle, ways[-1], factor, most), 2)
        return (ways[-1].served.cabinet, ways[-1].served.movement, at) if at < end else None

    def passages(self, vehicle: str, factor: float, most: float, stood: Stood) -> tuple[Passage, ...]:
        """Returns the passages of a vehicle that drives at `factor` times the limit, and at `most` at the most."""
        found = []
        for way in self.ways.get(vehicle, ()):
            if way.passed is None:
                continue
            arrived = min(self.reaches(vehicle, way, factor, most), way.passed)
            served = way.served
            found.append(
                Passage(
                    served.cabinet,
                    served.movement,
                    served.phase,
                    round(arrived, 2),
                    round(way.passed, 2),
                    round(way.passed - arrived, 2),
                    any((vehicle, it) in stood for it in way.edges),
                    self.was_green(served, arrived),
                )
            )
        return tuple(found)


def kind_of(vehicle_class: str) -> Kind:
    """Returns the kind of a vehicle of a class of SUMO."""
    return Kind.TRAIN if vehicle_class in RAIL else KINDS.get(vehicle_class, Kind.CAR)


class Begun(NamedTuple):
    """Where a vehicle began on its first edge, in metres, and how many seconds later than it wanted."""

    place: float
    late: float


def trips_of(
    path: pathlib.Path, traffic: Traffic, begin: float, types: dict[str, tuple[str, float]], stood: Stood, end: float
) -> list[Trip]:
    """Returns the trips of vehicles in SUMO's file of trips; `types` has the class and the greatest speed of each type,
    `end` is when the run ended."""
    found = []
    for _, element in xml.iterparse(path):
        if element.tag != "tripinfo":
            continue
        name = element.get("id")
        vehicle_class, most = types.get(element.get("vType", "").partition("@")[0], ("passenger", UNKNOWN_SPEED))
        late, arrival = float(element.get("departDelay")), float(element.get("arrival"))
        factor, depart = float(element.get("speedFactor", 1)), float(element.get("depart"))
        wanted = end - late if depart < 0 else depart - late - begin
        found.append(
            Trip(
                name,
                name.rpartition(".")[0] or name,
                kind_of(vehicle_class),
                traffic.passages(name, factor, most, stood),
                round(wanted, 2),
                None if arrival < 0 else round(arrival - begin, 2),
                round(float(element.get("timeLoss")) + late, 2),
                int(element.get("waitingCount")),
                traffic.waits(name, factor, most, end),
            )
        )
    return found


def stood_of(halts: list[Halt]) -> Stood:
    """Returns which vehicles stopped on which edge."""
    return {(vehicle, it.edge) for it in halts for vehicle in it.vehicles}


def starts_of(path: pathlib.Path) -> dict[str, Begun]:
    """Returns where and how late each vehicle began."""
    return {
        element.get("id"): Begun(float(element.get("departPos")), float(element.get("departDelay")))
        for _, element in xml.iterparse(path)
        if element.tag == "tripinfo"
    }


def walks_of(path: pathlib.Path, begin: float) -> dict[str, tuple[float, float | None]]:
    """Returns when each person began its way, and when it ended, None if it was under way."""
    found: dict[str, tuple[float, float | None]] = {}
    for _, element in xml.iterparse(path):
        if element.tag == "personinfo":
            ends = [float(it.get("arrival", -1)) for it in element]
            ended = round(ends[-1] - begin, 2) if ends and min(ends) >= 0 else None
            found[element.get("id", "")] = round(float(element.get("depart", 0)) - begin, 2), ended
    return found
