"""Saturation flow and lost time of each lane in a run of SUMO, by the field method of the Highway Capacity Manual: when
vehicles of the queue pass the stop line, in greens that begin with a queue (docs/MEASURES.md).
"""

import bisect
from collections import defaultdict
from collections.abc import Iterable
from typing import Any, NamedTuple

from .drive import call
from .halts import Halt
from .network import CROSSING, Network, edge_of
from .passing import Traffic
from .records import LaneFlow
from .signals import GREEN

LEAST, FIRST = 8, 4
"""A green counts if it begins with a queue of at least this number of vehicles; its headway is that of those after the
first four."""
CLEARS, APART = 6.0, 6.0
"""Seconds after the end of a green in which a vehicle may still pass; between two of a queue."""
History = dict[str, list[tuple[float, str]]]


class Approach(NamedTuple):
    """A lane before a signal: the signal, its cabinet, and the places of its links in the signal's states."""

    signal: str
    cabinet: int
    lane: str
    places: tuple[int, ...]


def approaches(network: Network, cabinets: dict[str, int]) -> list[Approach]:
    """Returns the lanes of vehicles before signals that cabinets have."""
    found = []
    for signal, cabinet in cabinets.items():
        places: dict[str, list[int]] = defaultdict(list)
        for link in network.links[signal]:
            if link.turn != CROSSING:
                places[link.start].append(link.index)
        found += [Approach(signal, cabinet, lane, tuple(own)) for lane, own in places.items()]
    return found


class Crossings:
    """Looks once a second which vehicles are on the lanes over junctions: from which lane each left an edge."""

    def __init__(self, network: Network, signals: Iterable[str], sumo: Any) -> None:
        self.froms = {
            network.vias[link.name]: link.start
            for name in signals
            for link in network.links[name]
            if link.name in network.vias
        }
        self.names = list(self.froms)
        self.count = call(sumo, "lane", "getLastStepVehicleNumber")
        self.there = call(sumo, "lane", "getLastStepVehicleIDs")
        self.lanes: dict[tuple[str, str], str] = {}
        """The lane from which a vehicle left an edge."""

    def look(self) -> None:
        """Keeps the vehicles that are over junctions now."""
        for name, count in zip(self.names, map(self.count, self.names)):
            if count:
                lane = self.froms[name]
                for vehicle in self.there(name):
                    self.lanes[vehicle, edge_of(lane)] = lane


Passages = dict[str, list[tuple[float, bool]]]
"""For each lane, when vehicles passed its stop line, and whether each had stopped before it."""


def passages_of(traffic: Traffic, halts: Iterable[Halt], crossed: dict[tuple[str, str], str]) -> Passages:
    """Returns which vehicles passed which lane's stop line: by the lane from which each was seen to leave its edge,
    otherwise by the one on which it stopped last there."""
    stood = {(vehicle, it.edge): it.lane for it in halts for vehicle in it.vehicles}
    found: Passages = defaultdict(list)
    for vehicle, ways in traffic.ways.items():
        for way in ways:
            key = vehicle, way.edges[-1]
            lane = crossed.get(key) or stood.get(key)
            if lane is not None and way.passed is not None:
                found[lane].append((way.passed, any((vehicle, it) in stood for it in way.edges)))
    for times in found.values():
        times.sort()
    return found


def greens_of(history: list[tuple[float, str]], places: tuple[int, ...]) -> list[tuple[float, float]]:
    """Returns from when to when any of some links had green."""
    found: list[tuple[float, float]] = []
    since: float | None = None
    for second, state in history:
        is_green = any(state[place] in GREEN for place in places)
        if is_green and since is None:
            since = second
        elif not is_green and since is not None:
            found.append((since, second))
            since = None
    return found


def queued(passed: list[tuple[float, bool]], start: float, end: float) -> list[float]:
    """Returns how long after the beginning of a green the stopped vehicles passed, as long as one follows another."""
    found: list[float] = []
    for at, has_stood in passed[bisect.bisect_left(passed, (start, False)) :]:
        if not has_stood or at > end + CLEARS or found and at - start - found[-1] > APART:
            break
        found.append(at - start)
    return found


def lane_flow(it: Approach, history: History, passed: Passages) -> LaneFlow | None:
    """Returns saturation flow and lost time of a lane, None if no green began with a queue."""
    greens = vehicles = 0
    beyond = fourth = 0.0
    for start, end in greens_of(history[it.signal], it.places):
        times = queued(passed.get(it.lane, []), start, end)
        if len(times) >= LEAST:
            greens, vehicles = greens + 1, vehicles + len(times) - FIRST
            beyond, fourth = beyond + times[-1] - times[FIRST - 1], fourth + times[FIRST - 1]
    if not greens or beyond <= 0:
        return None
    headway = beyond / vehicles
    lost = fourth / greens - FIRST * headway
    return LaneFlow(it.cabinet, it.lane, greens, vehicles, round(3600 / headway), round(lost, 2))


def lane_flows(lanes: list[Approach], history: History, passed: Passages) -> list[LaneFlow]:
    """Returns saturation flow and lost time of each lane that had queues."""
    return [found for it in lanes if (found := lane_flow(it, history, passed)) is not None]


def difference(flows: list[LaneFlow], saturation: float, lost: float) -> str:
    """Returns in a line how a run's lanes differ from what is assumed elsewhere, empty if they don't."""
    if not flows:
        return "no green began with eight vehicles that stood, so saturation flow and lost time weren't measured"
    rates, times = sorted(it.saturation for it in flows), sorted(it.lost for it in flows)
    weight = sum(it.vehicles for it in flows)
    mean = 3600 * weight / sum(3600 / it.saturation * it.vehicles for it in flows)
    late = sum(it.lost * it.greens for it in flows) / sum(it.greens for it in flows)
    if abs(mean - saturation) <= 0.05 * saturation and abs(late - lost) <= 0.5:
        return ""
    return (
        f"saturation flow is {mean:.0f} vehicles an hour ({rates[0]} to {rates[-1]} in {len(flows)} lanes), lost time"
        f" {late:.1f} s ({times[0]:.1f} to {times[-1]:.1f}); {saturation:g} and {lost:g} s are assumed (--saturation,"
        " --lost): delays of this run don't compare with those of queues or counts that have these"
    )
