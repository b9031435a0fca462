"""The detectors of SUMO: which of them call which phase, and what of it has changed.

An area is on while a vehicle is in it. A loop is on while a vehicle is over it; one that was crossed between two looks
is reported as on and off. What the tool builds are long loops, which cost SUMO a tenth of what its areas do. A long
loop misses a vehicle that changes lanes within its length, so once a second the tool looks for vehicles that have
stopped there.
"""

import pathlib
import xml.etree.ElementTree as xml
from collections import defaultdict
from typing import Any, NamedTuple

from ..shared.fault import Fault
from .drive import call
from .mapping import Map
from .network import Network

RARELY = 100_000
"""Seconds after which SUMO writes what a loop saw; the file isn't read."""
Key = tuple[int, int]
"""A cabinet and a phase."""


class Place(NamedTuple):
    """Where a detector lies: its lane, and the metres on it at which it begins and ends."""

    lane: str
    start: float
    end: float


class Areas:
    """The detectors that the tool builds: long loops before stop lines."""

    def __init__(self, street: Map, network: Network) -> None:
        self.places: dict[str, Place] = {}
        self.names: dict[Key, list[str]] = {}
        for signal in street.signals:
            for number, detector in enumerate(signal.detectors):
                for lane in detector.lanes:
                    name = f"arterial {signal.cabinet} {detector.phase} {number} {lane}"
                    self.names.setdefault((signal.cabinet, detector.phase), []).append(name)
                    self.places[name] = place(lane, network.lanes[lane], detector.length, detector.setback)

    def write(self, path: pathlib.Path) -> None:
        """Writes SUMO's additional file."""
        root = xml.Element("additional")
        for name, it in self.places.items():
            words = {"id": name, "lane": it.lane, "pos": it.start, "length": round(it.end - it.start, 2)}
            words |= {"freq": RARELY, "file": "NUL", "friendlyPos": "true"}
            xml.SubElement(root, "inductionLoop", {key: str(value) for key, value in words.items()})
        xml.indent(root)
        xml.ElementTree(root).write(path, encoding="unicode")


def place(lane: str, metres: float, length: float, setback: float) -> Place:
    """Returns where a detector lies on a lane, which is `metres` long."""
    end = max(metres - max(setback, 0.1), min(metres, 1.0))
    return Place(lane, round(max(end - length, 0), 2), round(end, 2))


class Stray(NamedTuple):
    """A vehicle that has stopped on a loop which doesn't see it: its lane, and the metre at which the loop begins."""

    vehicle: str
    lane: str
    start: float


class Row(NamedTuple):
    """What calls a phase: its loops, its areas, and where the loops lie that the tool built."""

    key: Key
    loops: tuple[str, ...]
    areas: tuple[str, ...]
    built: tuple[Place, ...]


class Detectors:
    """What calls each phase: a phase has a vehicle if one of its detectors has. `step` is SUMO's, in seconds. Rows and
    loops are identified by their places; a loop that was left since the look before by the complement of its place
    (`~`)."""

    def __init__(self, street: Map, areas: Areas, sumo: Any, step: float) -> None:
        rows = rows_of(street, areas, sumo)
        self.recent = step - 1e-6
        self.words = [(b"veh %d %d off" % row.key, b"veh %d %d on" % row.key) for row in rows]
        self.loops = [name for row in rows for name in row.loops]
        self.row_of = [number for number, row in enumerate(rows) for _ in row.loops]
        self.areas = [(number, row.areas) for number, row in enumerate(rows) if row.areas]
        self.built: dict[str, list[tuple[int, float]]] = defaultdict(list)
        """Of each lane the rows that have a built loop there, with the metre at which it begins."""
        for number, row in enumerate(rows):
            for spot in row.built:
                self.built[spot.lane].append((number, spot.start))
        self.since = call(sumo, "inductionloop", "getTimeSinceDetection")
        self.in_area = call(sumo, "lanearea", "getLastStepVehicleNumber")
        self.there = call(sumo, "lane", "getLastStepVehicleIDs")
        self.position = call(sumo, "vehicle", "getLanePosition")
        self.on: set[int] = set()
        self.over: list[int] | None = []
        """The loops that a vehicle was over at the last look; None if one had been left just before."""
        self.strays: dict[int, list[Stray]] = {}
        """By row, the vehicles that have stopped on a loop that doesn't see them."""

    def changes(self) -> list[bytes]:
        """Returns the requests for detectors that have changed since the last look."""
        recent = self.recent
        seconds = enumerate(map(self.since, self.loops))
        over = [~place if it else place for place, it in seconds if it < recent]
        if over == self.over and not self.strays and not self.areas:
            return []
        row_of = self.row_of
        on = {row_of[place] for place in over if place >= 0}
        passed = {row_of[~place] for place in over if place < 0}
        self.over = None if passed else over
        on |= self.seen_otherwise(on)
        changed, self.on = on ^ self.on, on
        told = []
        for row in sorted(changed | passed - on):
            off_and_on = self.words[row]
            if row in changed:
                told.append(off_and_on[row in on])
            else:
                told += reversed(off_and_on)
        return told

    def seen_otherwise(self, on: set[int]) -> set[int]:
        """Returns the rows that have a vehicle in an area, or one that no loop sees; rows in `on` are left out."""
        found = {row for row, areas in self.areas if row not in on and any(map(self.in_area, areas))}
        for row in [row for row in self.strays if row not in on and row not in found]:
            if self.has_stray(row):
                found.add(row)
        return found

    def look_for_strays(self, standing: dict[str, list[str]]) -> None:
        """Looks for vehicles that have stopped on a loop which doesn't see them; `standing` has the stopped ones of
        each lane."""
        for lane in standing:
            for row, start in self.built.get(lane, ()):
                if row not in self.on:
                    found = [Stray(it, lane, start) for it in standing[lane] if self.position(it) >= start]
                    if found:
                        self.strays.setdefault(row, []).extend(found)

    def has_stray(self, row: int) -> bool:
        """Tells whether one that was found on a loop of a row is still there."""
        left = [it for it in self.strays.pop(row) if self.is_on(it)]
        if left:
            self.strays[row] = left
        return bool(left)

    def is_on(self, stray: Stray) -> bool:
        """Tells whether the head of one that was found on a loop is still there."""
        return stray.vehicle in self.there(stray.lane) and self.position(stray.vehicle) >= stray.start


def rows_of(street: Map, areas: Areas, sumo: Any) -> list[Row]:
    """Returns what calls each phase; refuses a name that SUMO doesn't have."""
    loops, lanes = set(sumo.inductionloop.getIDList()), set(sumo.lanearea.getIDList())
    own: dict[Key, tuple[list[str], list[str]]] = defaultdict(lambda: ([], []))
    for key, names in areas.names.items():
        own[key][0].extend(names)
    for signal in street.signals:
        for detector in signal.detectors:
            for name in detector.ids:
                if name not in loops and name not in lanes:
                    raise Fault(f"{street.path}: signal {signal.id}: SUMO has no detector {name} (E1 or E2)")
                own[signal.cabinet, detector.phase][0 if name in loops else 1].append(name)
    built = {key: tuple(areas.places[name] for name in names) for key, names in areas.names.items()}
    return [Row(key, tuple(own[key][0]), tuple(own[key][1]), built.get(key, ())) for key in sorted(own)]
