"""A network of SUMO, as far as signals need it: links, their paths that cross, edges with length and speed.

Read from the file that netconvert writes (*.net.xml or *.net.xml.gz). The place of a link in a junction's matrix of
right of way is that of SUMO: links of vehicles by incoming lanes, then the crossings.
"""

import functools
import itertools
import math
import pathlib
import xml.etree.ElementTree as xml
from collections import defaultdict
from collections.abc import Iterator
from dataclasses import dataclass, field
from typing import NamedTuple

from ..shared.fault import Fault
from .xml_file import root_of

OF_TRAINS = ("rail_crossing", "rail_signal")
"""Kinds of junctions whose signals SUMO switches by the trains themselves; no cabinet has them."""
STRAIGHT, LEFT, RIGHT, TURN, CROSSING = "s", "l", "r", "t", "c"
OPPOSITE = 120
"""Approaches whose headings differ by at least this number of degrees are opposite."""
TURNS = {"s": STRAIGHT, "l": LEFT, "L": LEFT, "r": RIGHT, "R": RIGHT, "t": TURN}


class Link(NamedTuple):
    """A way from a lane to a lane over a junction, with its place in the signal's states and the one in the junction's
    matrix; `turn` is one of the five letters above."""

    signal: str
    index: int  # type: ignore[assignment]  # a tuple's own index isn't used
    junction: str
    place: int
    start: str
    end: str
    turn: str

    @property
    def name(self) -> str:
        """How a map names the link: the lane that it leaves and the one that it enters."""
        return f"{self.start} {self.end}"

    @property
    def approach(self) -> str:
        """The edge from which the link leads."""
        return edge_of(self.start)


class Edge(NamedTuple):
    """A directed edge: where it leads, its lanes, metres, metres a second, priority, and its headings at its end and
    at its start, in degrees from north, clockwise."""

    name: str
    start: str
    end: str
    lanes: int
    length: float
    speed: float
    priority: int
    heading: float
    leaving: float


class Part(NamedTuple):
    """A part of a way: metres, and the limit in metres a second."""

    metres: float
    speed: float


class Stage(NamedTuple):
    """A phase of a program: seconds, its state of all links, its name."""

    duration: float
    state: str
    name: str


class Program(NamedTuple):
    """A program of a signal in the network: its kind (static, actuated, NEMA ..), stages, parameters."""

    kind: str
    stages: tuple[Stage, ...]
    params: dict[str, str]


@dataclass
class Network:
    """All that is kept of a network. `foes` and `yields` have pairs of places in the matrix of each junction: paths
    that cross or join, and which gives way to which if both have a green that yields. `inner` is the way over a
    junction from an edge to an edge, `vias` the first lane over it of each link, by its name."""

    path: pathlib.Path
    edges: dict[str, Edge] = field(default_factory=dict)
    links: dict[str, list[Link]] = field(default_factory=dict)
    foes: dict[str, set[tuple[int, int]]] = field(default_factory=dict)
    yields: dict[str, set[tuple[int, int]]] = field(default_factory=dict)
    crossings: dict[str, tuple[str, ...]] = field(default_factory=dict)
    lanes: dict[str, float] = field(default_factory=dict)
    sidewalks: set[str] = field(default_factory=set)
    inner: dict[tuple[str, str], Part] = field(default_factory=dict)
    vias: dict[str, str] = field(default_factory=dict)
    programs: dict[str, Program] = field(default_factory=dict)

    def conflicts(self, signal: str) -> Iterator[tuple[Link, Link]]:
        """Yields the pairs of links of a signal whose paths cross or join."""
        by_junction: dict[str, dict[int, Link]] = defaultdict(dict)
        for link in self.links[signal]:
            by_junction[link.junction][link.place] = link
        for junction, places in by_junction.items():
            for a, b in sorted(self.foes[junction]):
                if a in places and b in places:
                    yield places[a], places[b]

    def gives_way(self, one: Link, other: Link) -> bool:
        """Tells whether a link with a green that yields lets another go first."""
        return (one.place, other.place) in self.yields[one.junction]


    def meets(self, one: Link, other: Link) -> bool:
        """Tells whether a turn gives way to another link by the rules of the road while both are green: to a crossing,
        and to opposing vehicles (within 60 degrees)."""
        if CROSSING in (one.turn, other.turn):
            return one.turn != CROSSING
        turned = self.edges[one.approach].heading - self.edges[other.approach].heading
        return abs((turned + 180) % 360 - 180) >= OPPOSITE


def edge_of(lane: str) -> str:
    """Returns the edge of a lane."""
    return lane.rpartition("_")[0]


def heading(shape: str) -> float:
    """Returns the heading of the last part of a shape, in degrees from north, clockwise."""
    points = [tuple(map(float, point.split(",")[:2])) for point in shape.split()]
    (x, y), (u, v) = next(
        ((a, b) for a, b in itertools.pairwise(reversed(points)) if a != b), (points[-1], points[-1])
    )
    return math.degrees(math.atan2(x - u, y - v)) % 360


@functools.lru_cache(maxsize=8)
def read(path: pathlib.Path) -> Network:
    """Reads a network; one that can't be read is a fault."""
    root = root_of(path)
    if root.tag != "net":
        raise Fault(f"{path}: no network of SUMO: its first element is {root.tag}")
    found = Network(path)
    try:
        for reads in (read_edges, read_links, read_inner, read_programs):
            reads(root, found)
    except (ValueError, IndexError, ZeroDivisionError) as fault:
        raise Fault(f"{path}: no network of SUMO: {fault}") from None
    except KeyError as fault:
        raise Fault(f"{path}: no network of SUMO: {fault} is missing") from None
    return found


def of(element: xml.Element, name: str) -> str:
    """Returns an attribute, which has to be there."""
    found = element.get(name)
    if found is None:
        raise ValueError(f"{element.tag} without {name}")
    return found


def read_edges(root: xml.Element, found: Network) -> None:
    """Reads edges, lanes and crossings."""
    for edge in root.iter("edge"):
        name, lanes = of(edge, "id"), edge.findall("lane")
        for lane in lanes:
            found.lanes[of(lane, "id")] = float(of(lane, "length"))
            if lane.get("allow") == "pedestrian":
                found.sidewalks.add(of(lane, "id"))
        if edge.get("function") == "crossing":
            found.crossings[name] = tuple(edge.get("crossingEdges", "").split())
        if edge.get("function", "normal") != "normal" or not lanes:
            continue
        shape = edge.get("shape") or of(lanes[-1], "shape")
        found.edges[name] = Edge(
            name,
            of(edge, "from"),
            of(edge, "to"),
            sum(lane.get("id") not in found.sidewalks for lane in lanes),
            max(float(of(lane, "length")) for lane in lanes),
            max(float(of(lane, "speed")) for lane in lanes),
            int(edge.get("priority", 0)),
            heading(shape),
            (heading(" ".join(reversed(shape.split()))) + 180) % 360,
        )


def places_of(root: xml.Element, found: Network) -> dict[tuple[str, str], tuple[str, int]]:
    """Returns the junction of each link and its place in the matrix; also reads which links cross."""
    ways, crossings = defaultdict(list), defaultdict(list)
    for way in root.iter("connection"):
        start, end = of(way, "from"), of(way, "to")
        if end in found.crossings:
            crossings[start.rpartition("_")[0].lstrip(":")].append((f"{start}_0", f"{end}_0"))
        elif not start.startswith(":") and not end.startswith(":"):
            lane = f"{start}_{way.get('fromLane')}"
            ways[lane].append((lane, f"{end}_{way.get('toLane')}"))
    places = {}
    for junction in root.iter("junction"):
        if junction.get("type") == "internal":
            continue
        name = of(junction, "id")
        order = [way for lane in junction.get("incLanes", "").split() if lane[:1] != ":" for way in ways[lane]]
        order += sorted(crossings[name], key=lambda way: int(edge_of(way[1]).rpartition("c")[2]))
        places.update({way: (name, place) for place, way in enumerate(order)})
        foes, yields = (pairs(junction, kind) for kind in ("foes", "response"))
        found.foes[name], found.yields[name] = {(a, b) for a, b in foes if a < b}, yields
    return places


def pairs(junction: xml.Element, kind: str) -> set[tuple[int, int]]:
    """Returns the pairs of places in a junction's matrix; SUMO writes a row from its last place to its first."""
    rows = [(int(of(row, "index")), of(row, kind)[::-1]) for row in junction.iter("request")]
    return {(a, b) for a, row in rows for b, it in enumerate(row) if it == "1"}


def read_links(root: xml.Element, found: Network) -> None:
    """Reads the links that have signals, and the paths that cross."""
    places = places_of(root, found)
    links = defaultdict(list)
    of_trains = {it.get("id") for it in root.iter("junction") if it.get("type") in OF_TRAINS}
    for way in root.iter("connection"):
        if "tl" not in way.attrib or way.get("tl") in of_trains:
            continue
        start, end = (f"{way.get(side)}_{way.get(side + 'Lane')}" for side in ("from", "to"))
        is_crossing = way.get("to") in found.crossings
        turn = CROSSING if is_crossing else TURNS.get(way.get("dir", ""), STRAIGHT)
        signal = of(way, "tl")
        links[signal].append(Link(signal, int(of(way, "linkIndex")), *places[start, end], start, end, turn))
    found.links = {signal: sorted(rows, key=lambda it: it.index) for signal, rows in sorted(links.items())}


def read_inner(root: xml.Element, found: Network) -> None:
    """Reads the ways over junctions, which may be of two lanes, one after the other."""
    parts = {of(it, "id"): Part(float(of(it, "length")), float(of(it, "speed"))) for it in root.iter("lane")}
    ways = [(it, it.attrib["via"]) for it in root.iter("connection") if it.get("via")]
    for it, via in ways:
        found.vias[f"{it.get('from')}_{it.get('fromLane')} {it.get('to')}_{it.get('toLane')}"] = via
    behind = {f"{it.get('from')}_{it.get('fromLane')}": via for it, via in ways}
    for way, via in ways:
        key = of(way, "from"), of(way, "to")
        if key[0] in found.edges and key[1] in found.edges and key not in found.inner:
            chain = [parts[it] for it in (via, behind.get(via)) if it]
            metres = sum(it.metres for it in chain)
            found.inner[key] = Part(metres, metres / sum(it.metres / it.speed for it in chain))


def read_programs(root: xml.Element, found: Network) -> None:
    """Reads the first program of each signal."""
    for logic in root.iter("tlLogic"):
        signal, kind = of(logic, "id"), logic.get("type", "static")
        stages = [Stage(float(of(it, "duration")), of(it, "state"), it.get("name", "")) for it in logic.iter("phase")]
        params = {of(it, "key"): of(it, "value") for it in logic.iter("param")}
        found.programs.setdefault(signal, Program(kind, tuple(stages), params))
