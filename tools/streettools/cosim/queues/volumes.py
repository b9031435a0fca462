"""The volumes of a street, as their TOML file has them: vehicles and persons, lanes, and where vehicles go on.

docs/QUEUES.md says what each name means. Times are seconds, times of day are seconds from midnight, volumes are
vehicles an hour.
"""

from dataclasses import dataclass, field
from typing import Any

from ...shared.clock import DAY_SECONDS, of_day
from ...shared.fault import Fault
from ...shared.given import NUMBER, Given


@dataclass(frozen=True)
class Profile:
    """How the volumes change over the day: from each time on they are multiplied by its factor, up to `until`."""

    name: str
    steps: tuple[tuple[float, float], ...]
    until: float

    def rates(self, start: float, seconds: float) -> list[tuple[float, float]]:
        """Returns the factors of a run that begins at a time of day: each with the second of the run up to which it
        holds."""
        ends = [at for at, _ in self.steps[1:]] + [self.until]
        return [(min(end - start, seconds), factor) for end, (_, factor) in zip(ends, self.steps) if end > start]


@dataclass(frozen=True)
class Saturation:
    """How a queue discharges: vehicles an hour of green and lane, start-up lost time, seconds of yellow that are
    used."""

    flow: float = 1800.0
    lost: float = 2.0
    yellow: float = 2.0


@dataclass(frozen=True)
class Detectors:
    """What sees vehicles: whether there is a presence detector at the stop line, how many seconds ahead of the line a
    passage detector lies (0: none), and how long a vehicle that drives is on one."""

    stop: bool = True
    ahead: float = 3.0
    occupied: float = 0.5


@dataclass(frozen=True)
class Onward:
    """Where vehicles go on: the cabinet and the approach there, how long they drive at the wanted speed (0 if the
    file doesn't say it, and a sheet has to), which share of the movement goes there (the others leave the street), and
    the dispersion of platoons."""

    cabinet: int
    approach: str
    travel: float
    share: float = 1.0
    dispersion: float = 0.35


@dataclass(frozen=True)
class Yielding:
    """How a movement turns that gives way: to which movements of its cabinet (none: by their names), the critical gap
    and the follow-up time in seconds (None: those of the Highway Capacity Manual), how many complete their turn after
    the green, and whether it turns on red."""

    to: tuple[str, ...] = ()
    critical: float | None = None
    follow: float | None = None
    sneakers: int = 2
    on_red: bool = False


@dataclass(frozen=True)
class Flow:
    """A movement of an approach: its phase, its volume, its lanes, its detectors, where it goes on. `permitted` are
    phases in which it may turn after it yields. `storage` is how many vehicles fit between the stop lines before and
    this one, None if there isn't a limit."""

    cabinet: int
    name: str
    approach: str
    phase: int
    volume: float
    lanes: int = 1
    headway: float = 0.0
    saturation: Saturation = field(default_factory=Saturation)
    detectors: Detectors = field(default_factory=Detectors)
    onward: Onward | None = None
    profile: str | None = None
    permitted: tuple[int, ...] = ()
    yielding: Yielding = field(default_factory=Yielding)
    storage: int | None = None


@dataclass(frozen=True)
class Crossing:
    """Persons who cross with a phase: how many an hour press its button."""

    cabinet: int
    phase: int
    persons: float
    profile: str | None = None


@dataclass(frozen=True)
class Volumes:
    """A whole file of volumes; `idle` are phases without traffic, with their cabinets."""

    title: str
    flows: tuple[Flow, ...]
    crossings: tuple[Crossing, ...] = ()
    idle: frozenset[tuple[int, int]] = frozenset()
    profiles: dict[str, Profile] = field(default_factory=dict)
    factor: float = 1.0


def time_of(text: Any) -> float | None:
    """Returns a time of day that is written as 7:30, in seconds; None if it isn't one."""
    return float(DAY_SECONDS) if text == "24:00" else of_day(text) if isinstance(text, str) else None


def profile_of(name: str, given: Given) -> Profile:
    """Reads a profile: a factor for each time of day, and `until`."""
    until = time_of(given.need("until", str))
    if until is None:
        raise given.refuse("until", 'has to be a time of day, as "09:00"')
    steps = []
    for word in given.table:
        if word == "until":
            continue
        at = time_of(word)
        if at is None:
            raise given.refuse(word, 'is not a time of day, as "07:00"')
        steps.append((at, float(given.within(word, NUMBER, 0, 1000))))
    if not steps or sorted(steps) != steps or len({at for at, _ in steps}) < len(steps) or steps[-1][0] >= until:
        raise Fault(f"volumes: {given.place} needs rising times of day, all before until")
    return Profile(name, tuple(steps), until)


def saturation_of(given: Given, usual: Saturation) -> Saturation:
    """Reads how a queue discharges."""
    return Saturation(
        given.within("saturation", NUMBER, 100, 3600, usual.flow),
        given.within("lost", NUMBER, 0, 10, usual.lost),
        given.within("yellow", NUMBER, 0, 3, usual.yellow),
    )


def detectors_of(given: Given, usual: Detectors) -> Detectors:
    """Reads the detectors of vehicles."""
    found = Detectors(
        given.take("stop_detector", bool, usual.stop),
        given.within("ahead", NUMBER, 0, 30, usual.ahead),
        given.within("occupied", NUMBER, 0.1, 10, usual.occupied),
    )
    return found


@dataclass(frozen=True)
class Usual:
    """The defaults of a movement."""

    saturation: Saturation
    detectors: Detectors
    headway: float
    dispersion: float
    profile: str | None

    @staticmethod
    def of(given: Given, usual: "Usual") -> "Usual":
        """Reads it, with what holds around it."""
        return Usual(
            saturation_of(given, usual.saturation),
            detectors_of(given, usual.detectors),
            given.within("headway", NUMBER, 0, 60, usual.headway),
            given.within("dispersion", NUMBER, 0, 2, usual.dispersion),
            given.take("profile", str, usual.profile),
        )


def onward_of(given: Given, dispersion: float) -> Onward | None:
    """Reads where a movement goes on: `to = "2 EB"` with the seconds of travel."""
    to = given.take("to", str)
    travel, share = given.within("travel", NUMBER, 2, 3600), given.within("share", NUMBER, 0, 1, 1.0)
    if to is None:
        if travel is not None:
            raise given.refuse("travel", "goes with to")
        return None
    number, _, approach = to.partition(" ")
    if not (number.isdecimal() and len(number) <= 3 and approach):
        raise given.refuse("to", 'has to be a cabinet and an approach, as "2 EB"')
    return Onward(int(number), approach, float(travel or 0), float(share), dispersion)


def yielding_of(given: Given) -> Yielding:
    """Reads how a movement turns that gives way."""
    return Yielding(
        given.texts("yields_to"),
        given.within("critical_gap", NUMBER, 0.5, 30),
        given.within("follow_up", NUMBER, 0.5, 30),
        given.within("sneakers", int, 0, 10, 2),
        given.take("on_red", bool, False),
    )


def flow_of(given: Given, cabinet: int, around: Usual) -> Flow:
    """Reads a movement."""
    name = given.need("name", str)
    given.place = f"cabinet {cabinet}, movement {name}: "
    usual = Usual.of(given, around)
    if not name or " " in name:
        raise given.refuse("name", "has to be one word, as EBT")
    if "phase" not in given.table:
        raise Fault(f"volumes: movement {name} of cabinet {cabinet} has no phase")
    found = Flow(
        cabinet,
        name,
        given.take("approach", str, name[:2]),
        given.within("phase", int, 1, 16),
        given.within("volume", NUMBER, 0, 100_000, 0),
        given.within("lanes", int, 1, 10, 1),
        usual.headway,
        usual.saturation,
        usual.detectors,
        onward_of(given, usual.dispersion),
        usual.profile,
        tuple(given.numbers("permitted", 16)),
        yielding_of(given),
        given.within("storage", int, 1, 10_000),
    )
    given.end()
    return found


def crossing_of(given: Given, cabinet: int, usual: Usual) -> Crossing:
    """Reads a crossing."""
    phase = given.need("phase", int)
    given.place = f"cabinet {cabinet}, crossing of phase {phase}: "
    found = Crossing(
        cabinet,
        given.within("phase", int, 1, 16),
        given.within("persons", NUMBER, 0, 100_000, 0),
        given.take("profile", str, usual.profile),
    )
    given.end()
    return found


def volumes_of(document: dict[str, Any]) -> Volumes:
    """Reads a whole file of volumes."""
    given = Given(document, "volumes")
    usual = Usual.of(given, Usual(Saturation(), Detectors(), 0.0, 0.35, None))
    flows: list[Flow] = []
    crossings: list[Crossing] = []
    idle: list[tuple[int, int]] = []
    numbers: list[int] = []

    def cabinet(row: Given) -> None:
        number = row.need("number", int)
        numbers.append(number)
        row.place = f"cabinet {number}: "
        flows.extend(row.each("movements", lambda it: flow_of(it, number, usual)))
        crossings.extend(row.each("crossings", lambda it: crossing_of(it, number, usual)))
        idle.extend((number, it) for it in row.numbers("idle", 16))

    given.each("cabinet", cabinet)
    table = given.below("profiles")
    profiles = {name: profile_of(name, Given(it, table.file, table.at(name))) for name, it in table.table.items()}
    title, factor = given.take("title", str, ""), given.within("factor", NUMBER, 0, 1000, 1.0)
    given.end()
    twice = next((it for it in numbers if numbers.count(it) > 1), None)
    if twice is not None:
        raise Fault(f"volumes: cabinet {twice} is listed twice")
    return Volumes(title, tuple(flows), tuple(crossings), frozenset(idle), profiles, float(factor))
