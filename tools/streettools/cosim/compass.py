"""Which phase a link has by the approaches' compass and turns, as the Highway Capacity Manual numbers them: phase 2
drives along the main street, and 4, 6 and 8 follow by quarter turns to the right. If 2 is eastbound, 4 is southbound, 6
westbound, 8 northbound, and 5, 7, 1 and 3 are their left turns. Right turns go with the straight ones.

An approach without an opposite one serves its left turns with its own phase, as the stem of a T does. A left turn that
shares its lane with another movement goes with the phase of that lane, and yields. If it is asked for, a left turn with
a phase of its own is permissive under the phase of opposing vehicles.
"""

from collections import defaultdict
from collections.abc import Container
from dataclasses import dataclass

from .network import CROSSING, LEFT, RIGHT, TURN, Link, Network

WAYS = "NESW"
BETWEEN = 90
STRAIGHT_PHASES, LEFT_PHASES = (2, 4, 6, 8), (5, 7, 1, 3)
"""Phases of the ways by quarter turns to the right from the way of phase 2."""
LETTER = {LEFT: "L", RIGHT: "R", TURN: "U"}


@dataclass
class LinkPhase:
    """What was found of a link: its movement's name, its phase (None if the user has to give it, with the reason), and
    the phase under which it is permissive. `is_said` means that the user gave the phase, `is_weak` that the network's
    own program has it give way in its phase."""

    link: Link
    name: str
    phase: int | None
    why: str = ""
    permissive: int | None = None
    is_said: bool = False
    is_weak: bool = False


def way_of(heading: float) -> int:
    """Returns the way nearest to a heading: 0 north, 1 east, 2 south, 3 west."""
    return round(heading / BETWEEN) % 4


def main_way(network: Network, approaches: list[str]) -> int:
    """Returns the way of phase 2: along the street with the greater priority, lanes and speed, eastbound or
    northbound."""
    weight: dict[int, tuple] = {}
    for axis in (1, 0):
        own = [network.edges[it] for it in approaches if way_of(network.edges[it].heading) % 2 == axis]
        weight[axis] = max(((it.priority, it.lanes * it.speed) for it in own), default=(-100, 0.0))
        weight[axis] = (weight[axis], len(own))
    return 0 if weight[0] > weight[1] else 1


class Compass:
    """A signal's approaches by their compass."""

    def __init__(
        self,
        network: Network,
        signal: str,
        main: int | None,
        is_permissive: bool = False,
        enabled: Container[int] = range(1, 9),
    ) -> None:
        self.enabled = enabled
        self.network, self.links, self.is_permissive = network, network.links[signal], is_permissive
        self.approaches = sorted({it.approach for it in self.links if it.turn != CROSSING})
        self.main = main_way(network, self.approaches) if main is None else main
        self.ways: dict[int, list[str]] = defaultdict(list)
        for edge in self.approaches:
            self.ways[way_of(network.edges[edge].heading)].append(edge)
        self.turns: dict[str, set[str]] = defaultdict(set)
        for it in self.links:
            self.turns[it.start].add(it.turn)

    def straight(self, way: int) -> int | None:
        """Returns the phase that drives a way: if its own isn't enabled, that of the opposite way."""
        own = (STRAIGHT_PHASES[(way - self.main + turned) % 4] for turned in (0, 2))
        return next((it for it in own if it in self.enabled), None)

    def on_phase(self, link: Link, name: str, way: int) -> LinkPhase:
        """Returns what is found of a link that goes with the phase of a way."""
        phase = self.straight(way)
        return LinkPhase(link, name, phase, "" if phase else f"the cabinet has no phase that drives {WAYS[way]}")

    def told(self) -> list[LinkPhase]:
        """Returns what is found of each link."""
        return [self.crossing(it) if it.turn == CROSSING else self.turn(it) for it in self.links]

    def turn(self, link: Link) -> LinkPhase:
        """Returns what is found of a link of vehicles."""
        way = way_of(self.network.edges[link.approach].heading)
        own = self.ways[way]
        place = "" if len(own) == 1 else str(own.index(link.approach) + 1)
        name = f"{WAYS[way]}B{place}{LETTER.get(link.turn, 'T')}"
        if len(own) > 1:
            return LinkPhase(link, name, None, f"{' and '.join(own)} both drive {WAYS[way]}")
        is_left = link.turn in (LEFT, TURN)
        has_opposite = bool(self.ways.get((way + 2) % 4))
        own_phase = LEFT_PHASES[(way - self.main) % 4]
        if is_left and has_opposite and self.turns[link.start] <= {LEFT, TURN} and own_phase in self.enabled:
            permissive = self.straight((way + 2) % 4) if self.is_permissive else None
            return LinkPhase(link, name, own_phase, permissive=permissive)
        return self.on_phase(link, name, way)

    def crossing(self, link: Link) -> LinkPhase:
        """Returns what is found of a crossing: it is walked along with the traffic that has it on its right."""
        crossed = self.network.crossings[link.end.rpartition("_")[0]]
        edges = [self.network.edges[it] for it in crossed if it in self.network.edges]
        coming = [it for it in edges if it.end == link.junction]
        if coming:
            arm = (way_of(coming[0].heading) + 2) % 4
        elif edges:
            arm = way_of(edges[0].leaving)
        else:
            return LinkPhase(link, f"ped {link.index}", None, "it crosses no edge that is known")
        beside = (arm - 1) % 4
        way = beside if self.ways.get(beside) else (beside + 2) % 4
        if not self.ways.get(way):
            why = f"no traffic drives parallel to the crossing on the {WAYS[arm]} side"
            return LinkPhase(link, f"ped {WAYS[arm]}", None, why)
        return self.on_phase(link, f"ped {WAYS[arm]}", way)


def by_nema(network: Network, signal: str) -> list[LinkPhase]:
    """Returns what is found of each link by SUMO's own NEMA logic: its phase is the one whose state gives it a green. A
    left turn that has the right of way under one phase and gives way under another is permissive there."""
    stages = [it for it in network.programs[signal].stages if it.name.isdigit()]
    compass = Compass(network, signal, None)
    found = []
    for told in compass.told():
        first, second = ({int(it.name) for it in stages if it.state[told.link.index] == letter} for letter in "Gg")
        own = sorted(first | second)
        if told.link.turn in (LEFT, TURN) and len(first) == len(second) == 1 and first != second:
            (told.phase,), (told.permissive,), told.why = first, second, ""
        else:
            told.phase = own[0] if len(own) == 1 else None
            told.is_weak = bool(second)
            told.why = "" if told.phase else f"NEMA phases {own} give it way" if own else "no NEMA phase gives it way"
        found.append(told)
    return found
