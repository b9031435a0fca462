"""The map of a street: which link of SUMO has which phase of which cabinet, what calls which phase.

A TOML file (docs/COSIM.md). Links are named by their lanes, so that a map of a different network is detected.
"""

import pathlib
from dataclasses import dataclass, field

from ..shared.given import NUMBER, Given, read_toml

MOST_CABINETS, MOST_PHASE, MOST_PREEMPT = 64, 16, 8


@dataclass(frozen=True)
class Overlap:
    """Phases under any of which a movement is green, and its own times in ticks, as `arterial overlaps` takes them."""

    parents: tuple[int, ...]
    trail: int
    yellow: int
    red: int


@dataclass(frozen=True)
class MappedMovement:
    """A movement: its name, the links of it, its phase or its overlap. If it `yields`, its green gives way, as that of
    a right turn over a crossing: to the movements that it names, or, with True, to all to which SUMO lets it give way.
    A `walk` is a crossing of pedestrians. A left turn may be `permissive` under a phase that isn't its own: while that
    one is green the turn also has a green, and gives way to opposing vehicles and to pedestrians."""

    name: str
    links: tuple[str, ...]
    phase: int | None
    overlap: Overlap | None
    yields: bool | tuple[str, ...]
    walk: bool
    permissive: int | None = None

    def phases(self) -> tuple[int, ...]:
        """Returns the phases under which the movement may have way, its own first."""
        return tuple(phase for phase, _ in self.ways())

    def ways(self) -> tuple[tuple[int, bool], ...]:
        """Returns the phases under which the movement may have way, each with whether it gives way then."""
        if self.overlap:
            return tuple((phase, bool(self.yields)) for phase in self.overlap.parents)
        assert self.phase is not None, "a movement without an overlap has a phase"
        own = ((self.phase, bool(self.yields)),)
        return own if self.permissive is None else (*own, (self.permissive, True))


    def yields_to(self, name: str) -> bool:
        """Tells whether its green gives way to another movement by the word of the map."""
        return self.yields is True or self.yields is not False and name in self.yields


@dataclass(frozen=True)
class MappedDetector:
    """What calls a phase: detectors of SUMO by their names, or lanes before whose stop line the tool builds an area
    of `length` metres, `setback` metres from the line."""

    phase: int
    ids: tuple[str, ...]
    lanes: tuple[str, ...]
    length: float
    setback: float


@dataclass(frozen=True)
class MappedSignal:
    """A signal of SUMO and its cabinet; `idle` are phases that the rings need, without traffic."""

    id: str
    cabinet: int
    idle: tuple[int, ...]
    movements: tuple[MappedMovement, ...]
    detectors: tuple[MappedDetector, ...]


@dataclass(frozen=True)
class MappedBus:
    """Vehicles that ask for priority: classes or types of SUMO, the class and level of their requests, at how many
    metres before the stop line they ask, for how many seconds after their arrival they hold."""

    vehicles: tuple[str, ...]
    number_class: int
    level: int
    ahead: float
    slack: float


@dataclass(frozen=True)
class MappedPreempt:
    """A preempt's input: on while a vehicle of these classes or types is on one of these edges, or within `ahead`
    metres before a stop line of the cabinet, on a way that one of `phases` serves (any, if none are named)."""

    cabinet: int
    number: int
    vehicles: tuple[str, ...]
    edges: tuple[str, ...]
    ahead: float | None = None
    phases: tuple[int, ...] = ()


@dataclass(frozen=True)
class Map:
    """A whole map. Signals in `own` keep the program that SUMO has for them."""

    path: pathlib.Path
    signals: tuple[MappedSignal, ...]
    own: tuple[str, ...] = ()
    buses: tuple[MappedBus, ...] = ()
    preempts: tuple[MappedPreempt, ...] = field(default=())


def overlap_of(given: Given) -> Overlap | None:
    """Reads the overlap of a movement."""
    parents = given.numbers("parents", MOST_PHASE)
    times = [given.within(name, int, 0, 255, least) for name, least in (("trail", 0), ("yellow", 30), ("red", 10))]
    return Overlap(parents, *times) if parents else None


def yields_of(given: Given) -> bool | tuple[str, ...]:
    """Reads to whom a movement gives way: true, or the names of movements."""
    is_list = isinstance(given.table.get("yields"), list)
    return given.texts("yields") if is_list else given.take("yields", bool, False)


def movement_of(given: Given) -> MappedMovement:
    """Reads a movement."""
    overlap = overlap_of(given)
    phase = given.take("phase", (int, str))
    if phase == "?":
        raise given.refuse("phase", "is still to be said (?)")
    if (phase is None) == (overlap is None):
        raise given.refuse("phase", "is needed, or parents in its place")
    phase = given.within("phase", int, 1, MOST_PHASE)
    found = MappedMovement(
        given.need("name", str),
        given.texts("links"),
        phase,
        overlap,
        yields_of(given),
        given.take("walk", bool, False),
        given.within("permissive", int, 1, MOST_PHASE),
    )
    if not found.links:
        raise given.refuse("links", "is missing")
    if found.walk and found.yields:
        raise given.refuse("yields", "is of vehicles: a walk has the right of way")
    if found.permissive is not None and (overlap or found.walk or found.permissive == phase):
        raise given.refuse("permissive", "must differ from the phase of vehicles, without overlap or walk")
    return found


def detector_of(given: Given) -> MappedDetector:
    """Reads a detector."""
    given.need("phase", int)
    found = MappedDetector(
        given.within("phase", int, 1, MOST_PHASE),
        given.texts("ids"),
        given.texts("lanes"),
        given.within("length", NUMBER, 0.1, 500, 15),
        given.within("setback", NUMBER, 0, 1000, 0),
    )
    if not found.ids and not found.lanes:
        raise given.refuse("ids", "or lanes is needed")
    return found


def signal_of(given: Given) -> MappedSignal:
    """Reads a signal."""
    given.need("cabinet", int)
    found = MappedSignal(
        given.need("id", str),
        given.within("cabinet", int, 1, MOST_CABINETS),
        given.numbers("idle", MOST_PHASE),
        given.each("movement", movement_of),
        given.each("detector", detector_of),
    )
    names = [it.name for it in found.movements]
    if twice := next((it for it in names if names.count(it) > 1), None):
        raise given.refuse("movement", f"has two of the name {twice}")
    for it in found.movements:
        others = () if isinstance(it.yields, bool) else it.yields
        if strange := next((other for other in others if other not in names), None):
            raise given.refuse("movement", f"{it.name} yields to {strange}, which is not a movement of this signal")
    return found


def bus_of(given: Given) -> MappedBus:
    """Reads which vehicles ask for priority."""
    return MappedBus(
        given.texts("vehicles"),
        given.within("class", int, 1, 10, 1),
        given.within("level", int, 1, 10, 1),
        given.within("ahead", NUMBER, 1, 5000, 250),
        given.within("slack", NUMBER, 0, 600, 10),
    )


def preempt_of(given: Given) -> MappedPreempt:
    """Reads a preempt's input."""
    for name in ("cabinet", "number"):
        given.need(name, int)
    found = MappedPreempt(
        given.within("cabinet", int, 1, MOST_CABINETS),
        given.within("number", int, 1, MOST_PREEMPT),
        given.texts("vehicles"),
        given.texts("edges"),
        given.within("ahead", NUMBER, 1, 5000),
        given.numbers("phases", MOST_PHASE),
    )
    if not found.vehicles:
        raise given.refuse("vehicles", "is missing: classes or types of SUMO")
    if not found.edges and found.ahead is None:
        raise given.refuse("edges", "is needed, or ahead in its place: metres before the stop line")
    if found.phases and found.ahead is None:
        raise given.refuse("phases", "goes with ahead")
    return found


def read_map(path: pathlib.Path) -> Map:
    """Reads a map."""
    given = read_toml(path)
    given.take("network", str)
    found = Map(
        path,
        given.each("signal", signal_of),
        given.texts("own"),
        given.each("bus", bus_of),
        given.each("preempt", preempt_of),
    )
    given.end()
    return found
