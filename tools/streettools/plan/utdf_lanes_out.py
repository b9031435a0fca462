"""The approaches and lane groups of a street as UTDF has them: names, speeds, times, lengths, volumes, phases. Ways are
those of a file of volumes, or those in the names of phases, as `Main St eastbound left`."""

import re
from dataclasses import dataclass, field
from typing import Any

from ..cosim.queues.volumes import Flow, Volumes
from ..shared.cells import tables_of, value
from .names import Intersection
from .reading import Street
from .utdf_links import LANES, LEFT, WAYS, turned

NAME = re.compile(rf"(?:(.*?) )?({'|'.join(WAYS.values())})(?: (left|right|U-turn))?")
SHORT = {long: short for short, long in WAYS.items()}
TURNS = {"left": "L", "right": "R", "U-turn": "U", None: "T"}
COLUMNS = [way + turn for way in ("NB", "SB", "EB", "WB") for turn in "LTR"]
OPPOSITE = {way: LEFT[LEFT[way]] for way in WAYS}
SHARED = {"R": "2", "L": "1"}
"""The code of lanes that are shared with right turns, or with left turns."""
NEARLY = 0.05
"""A share is kept in four digits: so near to a whole number of vehicles it is that number."""


def shown(number: float) -> str:
    """Returns a number as UTDF has it."""
    return f"{number:g}"


@dataclass
class Groups:
    """What UTDF says of the approaches and the lane groups of an intersection: records, each by way or lane group."""

    links: dict[str, dict[str, str]] = field(default_factory=dict)
    lanes: dict[str, dict[str, str]] = field(default_factory=dict)

    def link(self, record: str, way: str, said: str) -> None:
        """Sets a record of an approach, unless it is already set."""
        self.links.setdefault(record, {}).setdefault(way, said)

    def lane(self, record: str, lanes: str, said: str) -> None:
        """Sets a record of a lane group, unless it is already set."""
        self.lanes.setdefault(record, {}).setdefault(lanes, said)

    def columns(self) -> list[str]:
        """Returns the lane groups with a record that aren't among the usual ones."""
        return [lanes for row in self.lanes.values() for lanes in row if lanes not in COLUMNS]


class Writing:
    """A street on its way to UTDF, and what couldn't be written."""

    def __init__(self, street: Street, volumes: Volumes | None) -> None:
        self.street, self.volumes = street, volumes
        self.notes: list[str] = []
        count = len(street.scenario["cabinets"])
        self.groups = {number: Groups() for number in range(1, count + 1)}
        for number in self.groups:
            self.add_volumes(number)
            self.add_detectors(number)
            self.add_names(number, street.names.intersection(number))
        for number in range(1, count):
            self.add_travel(number, street.names.intersection(number))

    def flows(self, number: int) -> list[Flow]:
        """Returns the movements of a cabinet."""
        return [it for it in self.volumes.flows if it.cabinet == number] if self.volumes else []

    def add_volumes(self, number: int) -> None:
        """Adds the lane groups of a cabinet's movements."""
        flows, groups = self.flows(number), self.groups[number]
        names = {it.name for it in flows}
        for flow in flows:
            if not LANES.fullmatch(flow.name):
                self.notes.append(f"movement {flow.name} of cabinet {number} is not a lane group, as EBT: not written")
                continue
            groups.lane("Lanes", flow.name, str(flow.lanes))
            is_permitted_alone = flow.permitted and flow.phase in flow.permitted
            if not is_permitted_alone:
                groups.lane("Phase1", flow.name, str(flow.phase))
            for place, phase in enumerate(flow.permitted, 1):
                groups.lane(f"PermPhase{place}", flow.name, str(phase))
            onward = self.add_volume(groups, flow, names)
            if flow.onward and flow.onward.cabinet in self.groups:
                groups.lane("Dest Node", onward, str(flow.onward.cabinet))
                self.add_link(number, flow.onward.cabinet, flow.onward.approach, flow.onward.travel)
        for it in self.volumes.crossings if self.volumes else ():
            if it.cabinet == number:
                groups.lanes.setdefault("PedCalls", {})[str(it.phase)] = shown(it.persons)

    def add_volume(self, groups: Groups, flow: Flow, names: set[str]) -> str:
        """Adds the vehicles of a movement: if only a share of them goes on, in two lane groups that share its lanes.
        Returns the one that goes on: by its way, or the movement's own."""
        if not flow.onward or flow.onward.share == 1:
            groups.lane("Volume", flow.name, shown(flow.volume))
            return flow.name
        free = {flow.name[:2] + turn: code for turn, code in SHARED.items() if flow.name[:2] + turn not in names}
        way = flow.onward.approach
        beside = next((it for it in free if turned(it) == way and turned(flow.name) != way), next(iter(free), None))
        if beside is None:
            self.notes.append(f"movement {flow.name} of cabinet {flow.cabinet}: its share isn't written")
            groups.lane("Volume", flow.name, shown(flow.volume))
            return flow.name
        onward = beside if turned(beside) == way else flow.name
        going = flow.volume * flow.onward.share
        going = round(going) if abs(going - round(going)) < NEARLY else round(going, 2)
        groups.lane("Volume", onward, shown(going))
        groups.lane("Volume", beside if onward == flow.name else flow.name, shown(round(flow.volume - going, 2)))
        groups.lane("Shared", flow.name, free[beside])
        return onward

    def add_link(self, start: int, end: int, way: str, seconds: float) -> None:
        """Adds the approach by which vehicles drive from one intersection to another."""
        if way not in WAYS:
            self.notes.append(f"approach {way} of cabinet {end} is not a direction, as EB: not written")
            return
        groups = self.groups[end]
        groups.link("Up ID", way, str(start))
        groups.link("Time", way, shown(seconds))
        if abs(start - end) == 1:
            distance = self.street.names.intersection(min(start, end)).distance
            if distance:
                groups.link("Distance", way, shown(distance))

    def add_detectors(self, number: int) -> None:
        """Adds the detectors that are called by their lane groups."""
        called = self.street.names.intersection(number).detectors
        for it in self.street.bank:
            if it["cabinet"] != number:
                continue
            lanes = called.get(it["detector"], "")
            if not LANES.fullmatch(lanes):
                self.notes.append(f"detector {it['detector']} of intersection {number} has no lane group: not written")
                continue
            scale = self.street.scenario["ticks"] / 10
            self.groups[number].lane("DetectPhase1", lanes, str(it["phase"]))
            for record, name in (("DetectDelay1", "delay"), ("DetectExtend1", "extend")):
                if it[name]:
                    self.groups[number].lane(record, lanes, shown(it[name] * scale))

    def add_names(self, number: int, known: Intersection) -> None:
        """Adds streets, speeds and lane groups by the names of phases."""
        groups = self.groups[number]
        for phase, it in sorted(known.phases.items()):
            found = NAME.fullmatch(it.name)
            if found is None:
                if it.name or it.speed:
                    self.notes.append(
                        f"intersection {number}, phase {phase}: name and speed aren't written: "
                        "the name has no way, as eastbound"
                    )
                continue
            way, lanes = SHORT[found[2]], SHORT[found[2]] + TURNS[found[3]]
            if found[1]:
                groups.link("Name", way, found[1])
            if it.speed and lanes[2] == "T":
                groups.link("Speed", way, shown(it.speed))
            if lanes not in groups.lanes.get("Lanes", {}):
                groups.lane("Phase1", lanes, str(phase))

    def way_on(self, number: int) -> str:
        """Returns the way from an intersection to the next one: that of its lowest coordinated phase that has one."""
        tables, known = tables_of(self.street.scenario["cabinets"][number - 1]), self.street.names.intersection(number)
        split = value(tables, ("pattern", 1, 4)) or 1
        for phase in (*(it for it in tables.enabled() if value(tables, ("split", split, it, 5))), 2, 6):
            if found := NAME.fullmatch(known.phase(phase).name):
                return SHORT[found[2]]
        return "EB"

    def add_travel(self, number: int, known: Intersection) -> None:
        """Adds the link from an intersection to the next one and back, if no movement has added it."""
        if not known.travel:
            return
        ways = self.groups[number + 1].links.get("Up ID", {})
        if str(number) not in ways.values():
            way = self.way_on(number)
            self.add_link(number, number + 1, way, known.travel)
            self.add_link(number + 1, number, OPPOSITE[way], known.travel)


def lane_rows(writing: Writing) -> list[list[Any]]:
    """Returns the rows of the lane groups, with their header."""
    columns = list(dict.fromkeys([*COLUMNS, *(it for of in writing.groups.values() for it in of.columns())]))
    columns = [it for it in columns if LANES.fullmatch(it)]
    rows: list[list[Any]] = [["RECORDNAME", "INTID", *columns]]
    for number, of in writing.groups.items():
        for record, row in of.lanes.items():
            if record != "PedCalls":
                rows.append([record, number, *(row.get(it, "") for it in columns)])
    return rows


def link_rows(writing: Writing) -> list[list[Any]]:
    """Returns the rows of the links, with their header."""
    rows: list[list[Any]] = [["RECORDNAME", "INTID", *WAYS]]
    for number, of in writing.groups.items():
        rows += [[record, number, *(row.get(way, "") for way in WAYS)] for record, row in of.links.items()]
    return rows
