"""Volumes of a UTDF file as a file of volumes (docs/QUEUES.md): a movement for each lane group that has lanes, its
phase, where it goes on; persons who press buttons."""

from collections.abc import Iterator
from typing import Any

from .utdf_links import LANES, Links
from .utdf_node import Node
from .utdf_text import BLANK, Entry, Row, Utdf

DEST = "Dest Node"
PROTECTED, PERMITTED = (tuple(f"{front}{it}" for it in range(1, 5)) for front in ("Phase", "PermPhase"))
TAKEN = (
    "Volume", "Lanes", "Shared", DEST, PROTECTED[0], *PERMITTED, "DetectPhase1", "DetectDelay1", "DetectExtend1",
)  # fmt: skip
LEAST_TRAVEL, MOST_TRAVEL = 2, 3600
"""The seconds from stop line to stop line that a file of volumes takes."""


def minutes_of(entry: Entry, utdf: Utdf) -> int:
    """Returns the minute of the day of a count, which is written as 1715 or as 17:15."""
    words = entry.replace(":", "")
    if not (words.isdecimal() and len(words) <= 4 and int(words[-2:]) < 60 and int(words) < 2400):
        utdf.fault(entry, f"{str(entry)[:40]!r} is not a time of day, as 1715")
        return 0
    return int(words) // 100 * 60 + int(words[-2:])


class Counts:
    """The counts of a file VOLUME: those of the hour with the most vehicles of the whole street."""

    def __init__(self, utdf: Utdf) -> None:
        self.utdf = utdf
        self.notes: list[str] = []
        rows = utdf.records("volumes")
        days = list(dict.fromkeys(str(it.get("DATE", "")) for it in rows))
        if len(days) > 1:
            self.notes.append(f"counts of {days[0]} are taken, not those of {', '.join(days[1:])}")
        self.rows = [(minutes_of(it.get("TIME", BLANK), utdf), it) for it in rows if it.get("DATE", "") == days[0]]
        self.times = sorted({at for at, _ in self.rows})
        self.begin = self.peak()

    def peak(self) -> int:
        """Returns the minute at which the hour with the most vehicles begins."""
        by_time = {at: sum(self.total(it) for when, it in self.rows if when == at) for at in self.times}
        hours = {at: sum(by_time[it] for it in self.times if at <= it < at + 60) for at in self.times}
        begin = max(hours, key=lambda at: (hours[at], -at), default=0)
        if len(self.times) * self.utdf.interval > 60:
            hour = f"{begin // 60}:{begin % 60:02d}"
            self.notes.append(f"counts of the hour from {hour} are taken: it has the most vehicles")
        return begin

    def total(self, row: Row) -> float:
        """Returns the vehicles of a row."""
        return sum(self.utdf.number(it) or 0 for name, it in row.items() if LANES.fullmatch(name))

    def volume(self, node: str, lanes: str) -> float | None:
        """Returns the vehicles an hour of a lane group, None where the file doesn't count them."""
        rows = [it for at, it in self.rows if it.get("INTID") == node and self.begin <= at < self.begin + 60]
        found = [count for it in rows if (count := self.utdf.number(it.get(lanes))) is not None]
        return sum(found) * 60 / (self.utdf.interval * len(rows)) if found else None


class Movements:
    """The movements of an intersection."""

    def __init__(self, node: Node, cabinets: dict[str, int], counts: Counts) -> None:
        self.node, self.cabinets, self.counts = node, cabinets, counts
        names = (name for row in node.lanes.values() for name in row if LANES.fullmatch(name))
        counted = (name for _, it in counts.rows if it.get("INTID") == node.number for name in it)
        self.groups = [it for it in dict.fromkeys((*names, *counted)) if LANES.fullmatch(it)]

    def volume(self, lanes: str) -> float:
        """Returns the vehicles an hour of a lane group."""
        counted = self.counts.volume(self.node.number, lanes)
        return (self.node.lane("Volume", lanes) or 0) if counted is None else counted

    def phases(self, lanes: str) -> tuple[int | None, list[int]]:
        """Returns the phase that serves a lane group, and those in which it may turn after it yields."""
        permitted = [it for record in PERMITTED if (it := self.node.whole_lane(record, lanes))]
        phase = self.node.whole_lane(PROTECTED[0], lanes) or (permitted[0] if permitted else None)
        return phase, permitted

    def hosts(self) -> dict[str, str]:
        """Returns the lane group in whose lanes each one drives: its own where it has lanes, else that of its approach
        whose lanes it shares."""
        own = {it for it in self.groups if self.node.whole_lane("Lanes", it)}
        found = {it: it for it in own}
        for it in self.groups:
            if it in own or not self.volume(it):
                continue
            wanted = {"L": (1, 3), "R": (2, 3)}.get(it[2], ())
            beside = [it[:2] + turn for turn in "TLR" if it[:2] + turn in own]
            sharing = [to for to in beside if self.node.whole_lane("Shared", to) in wanted]
            if beside:
                found[it] = (sharing or beside)[0]
            else:
                self.node.note(f"{it} has a volume and no lanes, and is left out of the volumes")
        return found

    def onward(self, lanes: str) -> dict[str, Any]:
        """Returns where a lane group goes on, empty where it leaves the street."""
        aim = self.node.lanes.get(DEST, {}).get(lanes, BLANK)
        found = self.node.links.onward(self.node.number, lanes, aim)
        if found is None:
            return {}
        to = f"{self.cabinets[found.node]} {found.way}"
        if found.seconds is None or not LEAST_TRAVEL <= found.seconds <= MOST_TRAVEL:
            said = "no time" if found.seconds is None else f"a time of {found.seconds:g} s"
            self.node.note(f"{lanes} goes on to {to} with {said} (Time; Distance, Speed), so it leaves the street")
            return {}
        return {"to": to, "travel": tidy(found.seconds)}

    def row(self, host: str, members: list[str]) -> dict[str, Any] | None:
        """Returns a movement, with the volumes of all that share its lanes."""
        phase, permitted = self.phases(host)
        if phase not in self.node.used:
            said = "no phase" if phase is None else f"phase {phase}, which has no times"
            self.node.note(f"{host} has {said}, and is left out of the volumes")
            return None
        volumes = {it: self.volume(it) for it in members}
        total = sum(volumes.values())
        row: dict[str, Any] = {"name": host, "phase": phase, "volume": tidy(total)}
        row |= {"permitted": permitted} if permitted else {}
        lanes = self.node.whole_lane("Lanes", host) or 1
        row |= {"lanes": lanes} if lanes > 1 else {}
        ways = {it: self.onward(it) for it in members}
        main = max(members, key=lambda it: (bool(ways[it]), volumes[it], it == host))
        if not ways[main]:
            return row
        share = sum(volumes[it] for it in members if ways[it] == ways[main]) / total if total else 1
        others = [it for it in members if ways[it] and ways[it] != ways[main]]
        if others:
            self.node.note(f"{', '.join(others)} shares lanes with {main}, so its vehicles leave the street here")
        return row | ways[main] | ({"share": round(share, 4)} if round(share, 4) < 1 else {})

    def rows(self) -> Iterator[dict[str, Any]]:
        """Yields the movements, in the order of the file."""
        hosts = self.hosts()
        for host in (it for it in self.groups if hosts.get(it) == it):
            found = self.row(host, [it for it in self.groups if hosts.get(it) == host])
            if found is not None:
                yield found


def tidy(value: float) -> float | int:
    """Returns a number without a fraction of 0, to hundredths."""
    return int(value) if float(value).is_integer() else round(value, 2)


def crossings(node: Node) -> list[dict[str, Any]]:
    """Returns the persons an hour who press the button of each phase."""
    persons = {phase: node.at("PedCalls", phase) for phase in node.used}
    for phase in [it for it, count in persons.items() if count and not node.at("Walk", it)]:
        node.note(f"PedCalls of phase {phase} is left out: the phase has no Walk")
        del persons[phase]
    return [{"phase": phase, "persons": tidy(it)} for phase, it in persons.items() if it]


def document(nodes: list[Node], links: Links, utdf: Utdf, title: str, enabled: list[list[int]]) -> dict[str, Any]:
    """Returns the file of volumes of some intersections, as its tables: empty where the file has no volumes. `enabled`
    are the phases of each cabinet."""
    counts = Counts(utdf)
    cabinets = {node.number: number for number, node in enumerate(nodes, 1)}
    has_volumes = counts.rows or any("Volume" in node.lanes for node in nodes)
    found: list[dict[str, Any]] = []
    for node, phases in zip(nodes, enabled, strict=True):
        row: dict[str, Any] = {"number": cabinets[node.number]}
        row["movements"] = list(Movements(node, cabinets, counts).rows()) if has_volumes else []
        if persons := crossings(node):
            row["crossings"] = persons
        busy = {it["phase"] for it in (*row["movements"], *persons)}
        if idle := [it for it in phases if it not in busy]:
            row["idle"] = idle
        found.append(row)
    utdf.notes += counts.notes
    return {"title": title, "cabinet": found} if has_volumes else {}
