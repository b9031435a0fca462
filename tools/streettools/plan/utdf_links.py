"""The approaches of a UTDF file: from which node each comes, how long it is, how fast and how long vehicles drive; and
the ways over nodes without signals."""

import re
from dataclasses import dataclass, field
from typing import NamedTuple

from .utdf_text import BLANK, Entry, Utdf

WAYS = {
    "NB": "northbound", "SB": "southbound", "EB": "eastbound", "WB": "westbound", "NE": "northeastbound",
    "NW": "northwestbound", "SE": "southeastbound", "SW": "southwestbound",
}  # fmt: skip
LANES = re.compile("(" + "|".join(WAYS) + ")[LTRU]2?")
"""Lane groups, as EBT."""

LEFT = {"EB": "NB", "NB": "WB", "WB": "SB", "SB": "EB", "NE": "NW", "NW": "SW", "SW": "SE", "SE": "NE"}
RIGHT = {after: before for before, after in LEFT.items()}
LEGS = {"NB": "S", "SB": "N", "EB": "W", "WB": "E", "NE": "SW", "NW": "SE", "SE": "NW", "SW": "NE"}
"""On which leg of an intersection vehicles come, by their way, as LAYOUT names the legs."""

UP, TIME = ("Up ID", "Up Node"), ("Time", "Travel Time", "TravelTime")
TAKEN = ("Name", "Distance", "Speed", *UP, *TIME)
FEET_A_SECOND, METRES_A_SECOND = 5280 / 3600, 1 / 3.6
FARTHEST = 64
"""A way passes at most this number of nodes without signals."""


def turned(lanes: str) -> str:
    """Returns the way in which vehicles of a lane group leave the intersection."""
    way, turn = lanes[:2], lanes[2]
    return {"L": LEFT[way], "R": RIGHT[way], "U": LEFT[LEFT[way]]}.get(turn, way)


class Reached(NamedTuple):
    """An intersection with signals that a way leads to: its node, the way there, the seconds and the distance, None
    if the file doesn't say it."""

    node: str
    way: str
    seconds: float | None
    distance: float | None


@dataclass
class Links:
    """All approaches of a file; `ends` are the nodes with signals."""

    utdf: Utdf
    ends: list[str] = field(default_factory=list)

    def __post_init__(self) -> None:
        self.tables = {section: self.by_node(section) for section in ("links", "lanes")}
        self.layout = {str(it.get("INTID", "")): it for it in self.utdf.records("layout")}
        self.metric = self.utdf.number(self.utdf.setting("Metric")) == 1
        nodes = [*self.tables["links"], *self.tables["lanes"], *self.layout]
        self.next: dict[str, list[tuple[str, str]]] = {}
        for node in dict.fromkeys(nodes):
            for way in WAYS:
                if before := self.up(node, way):
                    self.next.setdefault(before, []).append((node, way))

    def by_node(self, section: str) -> dict[str, dict[str, dict[str, Entry]]]:
        """Returns the records of a section by node and name."""
        found: dict[str, dict[str, dict[str, Entry]]] = {}
        for it in self.utdf.records(section):
            found.setdefault(str(it.get("INTID", "")), {})[str(it.get("RECORDNAME", ""))] = it
        return found

    def entry(self, node: str, way: str, *records: str) -> Entry:
        """Returns what the file says of an approach: for the link, or for a lane group of it."""
        for record in records:
            found = self.tables["links"].get(node, {}).get(record, {}).get(way)
            if found:
                return found
        for record in records:
            row = self.tables["lanes"].get(node, {}).get(record, {})
            for turn in ("T", "L", "R", "U"):
                if found := row.get(way + turn):
                    return found
        return BLANK

    def up(self, node: str, way: str) -> str:
        """Returns the node from which an approach leads here, empty if the file doesn't say it."""
        entry = self.entry(node, way, *UP) or self.layout.get(node, {}).get(LEGS[way] + "_ID", BLANK)
        number = self.utdf.whole(entry)
        return str(number) if number else ""

    def name(self, node: str, way: str) -> str:
        """Returns the name of the street of an approach."""
        return str(self.entry(node, way, "Name") or self.layout.get(node, {}).get(LEGS[way] + "_NAME", BLANK))

    def description(self, node: str) -> str:
        """Returns the description of a node."""
        found = next((it.get("DESCRIPTION") for it in self.utdf.records("nodes") if it.get("INTID") == node), None)
        return str(found or self.layout.get(node, {}).get("INTNAME") or "")

    def speed(self, node: str, way: str) -> float | None:
        """Returns the speed of an approach."""
        return self.utdf.number(self.entry(node, way, "Speed"))

    def distance(self, node: str, way: str) -> float | None:
        """Returns the length of an approach from the node before."""
        return self.utdf.number(self.entry(node, way, "Distance"))

    def seconds(self, node: str, way: str) -> float | None:
        """Returns how long vehicles drive on an approach: its time, or its length at its speed."""
        found = self.utdf.number(self.entry(node, way, *TIME))
        length, speed = self.distance(node, way), self.speed(node, way)
        if not found and length and speed:
            found = length / (speed * (METRES_A_SECOND if self.metric else FEET_A_SECOND))
        return round(found, 1) if found else None

    def follow(self, node: str, way: str) -> Reached | None:
        """Returns the intersection with signals that an approach leads to, straight on over nodes without signals; None
        if the street ends before."""
        seconds, length = self.seconds(node, way), self.distance(node, way)
        before = self.up(node, way)
        for _ in range(FARTHEST):
            if node in self.ends:
                return Reached(node, way, seconds and round(seconds, 1), length)
            onward = [it for it in self.next.get(node, ()) if it[0] != before]
            straight = [it for it in onward if it[1] == way] or (onward if len(onward) == 1 else [])
            if not straight:
                return None
            before, (node, way) = node, straight[0]
            more, farther = self.seconds(node, way), self.distance(node, way)
            seconds = None if seconds is None or more is None else seconds + more
            length = None if length is None or farther is None else length + farther
        return None

    def between(self, node: str, aim: str) -> Reached | None:
        """Returns how vehicles drive from one intersection with signals to another; None if no way leads there."""
        for approach in self.next.get(node, ()):
            found = self.follow(*approach)
            if found is not None and found.node == aim:
                return found
        return None

    def onward(self, node: str, lanes: str, aim: Entry) -> Reached | None:
        """Returns where vehicles of a lane group drive to: the node that the file says, or that by their way."""
        number = self.utdf.whole(aim)
        approaches = self.next.get(node, ())
        if number:
            at = [it for it in approaches if it[0] == str(number)]
        else:
            at = [it for it in approaches if it[1] == turned(lanes)]
        straight = [it for it in at if it[1] == turned(lanes)] or at
        return self.follow(*straight[0]) if straight else None
