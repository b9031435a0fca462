"""The traffic: each vehicle with its route through the street and its times of travel, each person, all generated from
a seed.

All that is random is in here. The traffic doesn't depend on what the signals show, so a seed gives the same traffic
under every plan, and runs can be compared in pairs.
"""

import math
import random
from collections.abc import Iterator
from dataclasses import dataclass
from typing import NamedTuple

from ...shared.fault import Fault
from .volumes import Flow, Onward, Volumes

LONGEST = 500
"""No vehicle passes more stop lines than this."""

Rates = list[tuple[float, float]]
"""Arrivals a second, each with the second up to which it holds."""


class Way(NamedTuple):
    """A way through the street: the places of its movements in the list of all, and the name of its route."""

    flows: tuple[int, ...]
    route: str


class Vehicle(NamedTuple):
    """A vehicle: the second at which it reaches its first stop line if nothing holds it, its way, and the seconds that
    it drives from each stop line to the next."""

    entry: float
    way: Way
    travels: tuple[float, ...]


class Person(NamedTuple):
    """A person who arrives at a crossing (by its place in the list of all) at a second."""

    at: float
    crossing: int


@dataclass(frozen=True)
class Demand:
    """All vehicles and persons, in the order of their times."""

    vehicles: tuple[Vehicle, ...]
    persons: tuple[Person, ...]


def arrivals(draw: random.Random, rates: Rates, least: float) -> Iterator[float]:
    """Yields the seconds at which vehicles arrive at random: gaps are exponential beyond a minimum headway (a shifted
    negative exponential; with 0 a Poisson process), by a rate that may change."""
    at, left = 0.0, -math.log(1.0 - draw.random())
    for end, rate in rates:
        hazard = rate / (1.0 - rate * least)
        while hazard and at < end and left <= hazard * (end - at):
            at += left / hazard
            yield at
            at, left = at + least, -math.log(1.0 - draw.random())
        left -= hazard * max(0.0, end - at)
        at = max(at, end)


def rates_of(volumes: Volumes, profile: str | None, per_hour: float, start: float, seconds: float) -> Rates:
    """Returns the rates of a volume over a run."""
    rate = per_hour * volumes.factor / 3600
    if profile is None:
        return [(seconds, rate)]
    return [(end, rate * factor) for end, factor in volumes.profiles[profile].rates(start, seconds)]


class Network:
    """Where each movement leads."""

    def __init__(self, flows: tuple[Flow, ...]) -> None:
        self.flows = flows
        self.approaches: dict[tuple[int, str], list[int]] = {}
        for place, it in enumerate(flows):
            self.approaches.setdefault((it.cabinet, it.approach), []).append(place)
        self.fed = {(it.onward.cabinet, it.onward.approach) for it in flows if it.onward and it.onward.share > 0}
        self.known: dict[tuple[int, ...], Way] = {}

    def entries(self) -> Iterator[int]:
        """Yields the movements whose vehicles enter from outside the street."""
        for place, it in enumerate(self.flows):
            if (it.cabinet, it.approach) not in self.fed:
                yield place

    def turned(self, draw: random.Random, onward: Onward) -> int:
        """Returns the movement that a vehicle takes at an approach, by the shares of their volumes."""
        places = self.approaches[onward.cabinet, onward.approach]
        left = draw.random() * sum(self.flows[it].volume for it in places)
        for place in places:
            left -= self.flows[place].volume
            if left < 0:
                return place
        return places[-1]

    def driven(self, draw: random.Random, entry: float, first: int) -> Vehicle:
        """Returns a vehicle that enters at a first movement, with its whole route."""
        places = [first]
        travels: list[float] = []
        while True:
            onward = self.flows[places[-1]].onward
            if onward is None or draw.random() >= onward.share:
                return Vehicle(entry, self.way(tuple(places)), tuple(travels))
            if len(places) == LONGEST:
                raise Fault(f"volumes: vehicles pass more than {LONGEST} stop lines: their way has no end")
            travels.append(travel(draw, onward))
            places.append(self.turned(draw, onward))

    def way(self, places: tuple[int, ...]) -> Way:
        """Returns the way through some movements."""
        if places not in self.known:
            self.known[places] = Way(places, route([self.flows[it] for it in places]))
        return self.known[places]


def travel(draw: random.Random, onward: Onward) -> float:
    """Returns how long a vehicle drives to the next stop line, by Robertson's dispersion: the shortest time is 1 / (1 +
    dispersion) of the time of travel, and the rest is exponential, with the time of travel as the mean."""
    factor = onward.dispersion / (1.0 + onward.dispersion)
    return onward.travel * (1.0 - factor - factor * math.log(1.0 - draw.random()))


def route(flows: list[Flow]) -> str:
    """Returns the name of a way: `EBT 1-4` passes cabinets 1 to 4 as EBT, `EBT 1-2, EBL 3` turns left at the third."""
    parts: list[list] = []
    for it in flows:
        if parts and parts[-1][0] == it.name:
            parts[-1][2] = it.cabinet
        else:
            parts.append([it.name, it.cabinet, it.cabinet])
    return ", ".join(f"{name} {one}" + (f"-{last}" if last != one else "") for name, one, last in parts)


def demand_of(volumes: Volumes, seed: int, start: float, seconds: float) -> Demand:
    """Generates the traffic of a run that begins at a time of day. Each movement and each crossing has random numbers
    of its own."""
    network = Network(volumes.flows)
    vehicles: list[Vehicle] = []
    persons: list[Person] = []
    for place in network.entries():
        it = volumes.flows[place]
        draw = random.Random(f"{seed}/{it.cabinet}/{it.name}")
        rates = rates_of(volumes, it.profile, it.volume, start, seconds)
        came = list(arrivals(draw, rates, it.headway / it.lanes))
        vehicles.extend(network.driven(draw, at, place) for at in came)
    for place, crossing in enumerate(volumes.crossings):
        draw = random.Random(f"{seed}/{crossing.cabinet}/ped {crossing.phase}")
        rates = rates_of(volumes, crossing.profile, crossing.persons, start, seconds)
        persons.extend(Person(at, place) for at in arrivals(draw, rates, 0.0))
    vehicles.sort(key=lambda it: it.entry)
    persons.sort()
    return Demand(tuple(vehicles), tuple(persons))
