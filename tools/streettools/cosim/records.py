"""What is recorded of a street with traffic, whatever simulates it: trips, passages of stop lines, queues.

SUMO's runs and the model of queues both hand a `Study` to the report and the pictures. All times are seconds from the
start of the run, so tick T of the trace is second T / 10; distances are metres.
"""

import enum
import json
import pathlib
from collections.abc import Iterable, Iterator
from dataclasses import dataclass, field
from typing import Any, NamedTuple

FORM = 1
"""The form of the file that keeps a study."""


class Kind(enum.StrEnum):
    """Who is under way."""

    CAR = "car"
    BUS = "bus"
    TRAIN = "train"
    EMERGENCY = "emergency"
    PERSON = "person"


class Movement(NamedTuple):
    """A movement at an intersection: its cabinet (from 1), a name that is its own there (as `EBT`, `NBL`, or `ped 4`),
    and the phase that serves it, None if an overlap does; `parents` are the phases of that overlap, or the phase and
    the second one, under which it gives way. `service` is how a queue of it discharges: the saturation flow of all its
    lanes in vehicles an hour, the start-up lost time and the part of yellow that is used, in seconds; None if that
    isn't known, or if gaps decide. `storage` is how many vehicles fit before its stop line, None if there isn't a
    limit."""

    cabinet: int
    name: str
    phase: int | None
    parents: tuple[int, ...] = ()
    service: tuple[float, float, float] | None = None
    storage: int | None = None

    def phases(self) -> tuple[int, ...]:
        """Returns the phases under which the movement may have way."""
        return self.parents or (() if self.phase is None else (self.phase,))


class Passage(NamedTuple):
    """A vehicle at one stop line. `arrived` is the second at which it would have passed the line if nothing had held it
    on its way there, `released` the second at which it passed; `delay` is the difference, never below 0. `stopped`
    means that it stopped on the approach, `on_green` that its movement had green at `arrived`. `phase` is the one of
    the movement, None under an overlap."""

    cabinet: int
    movement: str
    phase: int | None
    arrived: float
    released: float
    delay: float
    stopped: bool
    on_green: bool


class Trip(NamedTuple):
    """A whole trip of a vehicle or a person. `route` is the name of the flow, the line or the route; `depart` is when
    it wanted to start, `arrive` when it was there, None if it was still under way at the end; `delay` is the time lost
    against driving freely, with the wait to get in; `stops` is how often it stopped. `waits` is the stop line at which
    it waited when the run ended: the cabinet, the movement, and when it would have passed there; None if it didn't."""

    vehicle: str
    route: str
    kind: Kind
    passages: tuple[Passage, ...]
    depart: float
    arrive: float | None
    delay: float
    stops: int
    waits: tuple[int, str, float] | None = None


class QueueSample(NamedTuple):
    """How many vehicles of a movement waited at its stop line at a second: would have passed it, and hadn't. The number
    holds until the next sample of the movement, and is 0 before its first."""

    cabinet: int
    movement: str
    second: float
    vehicles: int


def queue_samples(trips: Iterable[Trip], movements: Iterable[Movement]) -> list[QueueSample]:
    """Returns how many vehicles waited at each stop line, whenever that changed: vehicles that would have passed it if
    nothing had held them, and that hadn't."""
    changes: dict[tuple[int, str], list[tuple[float, int]]] = {(it.cabinet, it.name): [] for it in movements}
    for trip in trips:
        for it in trip.passages:
            if it.arrived < it.released and trip.kind is not Kind.PERSON:
                changes[it.cabinet, it.movement] += ((it.arrived, 1), (it.released, -1))
        if trip.waits is not None:
            changes[trip.waits[:2]].append((trip.waits[2], 1))
    found = []
    for (cabinet, movement), rows in changes.items():
        count = 0
        for at, change in sorted(rows):
            count += change
            found.append(QueueSample(cabinet, movement, at, count))
    return found


class Request(NamedTuple):
    """A priority request of a vehicle: the cabinet, the request's number there, its phase; when it was made, and when
    it was taken back, None if the run ended before."""

    vehicle: str
    cabinet: int
    number: int
    phase: int
    made: float
    cancelled: float | None


class LaneFlow(NamedTuple):
    """How a lane's queue discharged, as it was measured: of how many greens and vehicles, the saturation flow in
    vehicles an hour, the start-up lost time in seconds."""

    cabinet: int
    lane: str
    greens: int
    vehicles: int
    saturation: int
    lost: float


@dataclass
class Study:
    """A street with its traffic: how many cabinets, their movements, the trace, and what was recorded over `seconds`.
    Trips that started before `warm` are kept, and are for the report to leave out."""

    cabinets: int
    movements: list[Movement]
    trace: pathlib.Path
    trips: list[Trip]
    queues: list[QueueSample]
    seconds: float
    warm: float = 0.0
    requests: list[Request] = field(default_factory=list)
    title: str = ""
    lanes: list[LaneFlow] = field(default_factory=list)

    @property
    def passages(self) -> Iterator[Passage]:
        """Yields each passage of each trip."""
        for trip in self.trips:
            yield from trip.passages

    def movement(self, cabinet: int, name: str) -> Movement:
        """Returns a movement by its cabinet and its name."""
        return next(it for it in self.movements if (it.cabinet, it.name) == (cabinet, name))


def written(study: Study) -> dict[str, Any]:
    """Returns a study as what JSON has; the trace is named as its file is."""
    return {
        "form": FORM,
        "title": study.title,
        "cabinets": study.cabinets,
        "seconds": study.seconds,
        "warm": study.warm,
        "trace": study.trace.name,
        "movements": study.movements,
        "trips": study.trips,
        "queues": study.queues,
        "requests": study.requests,
        "lanes": study.lanes,
    }


def read(document: dict[str, Any], folder: pathlib.Path) -> Study:
    """Returns the study that `written` gave; the trace is in the folder."""

    def trip(row: list[Any]) -> Trip:
        vehicle, route, kind, passages, depart, arrive, delay, stops, waits = (*row, None)[:9]
        told = tuple(Passage(*it) for it in passages)
        wait: tuple[int, str, float] | None = (waits[0], waits[1], waits[2]) if waits else None
        return Trip(vehicle, route, Kind(kind), told, depart, arrive, delay, stops, wait)

    def movement(row: list[Any]) -> Movement:
        cabinet, name, phase, parents, service, storage = (*row, None, None)[:6]
        served = (service[0], service[1], service[2]) if service else None
        return Movement(cabinet, name, phase, tuple(parents), served, storage)

    return Study(
        cabinets=document["cabinets"],
        movements=[movement(row) for row in document["movements"]],
        trace=folder / document["trace"],
        trips=[trip(row) for row in document["trips"]],
        queues=[QueueSample(*row) for row in document["queues"]],
        seconds=document["seconds"],
        warm=document["warm"],
        requests=[Request(*row) for row in document["requests"]],
        title=document["title"],
        lanes=[LaneFlow(*row) for row in document.get("lanes", ())],
    )


def save(study: Study, path: pathlib.Path) -> None:
    """Writes a study next to its trace."""
    path.write_text(json.dumps(written(study), separators=(",", ":")) + "\n", encoding="utf-8")


def load(path: pathlib.Path) -> Study:
    """Reads a study from the file that keeps it."""
    return read(json.loads(path.read_text(encoding="utf-8")), path.parent)
