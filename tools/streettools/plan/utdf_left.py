"""What of a UTDF file has no place in a sheet or in volumes: each record is named once, with the nodes that have it."""

import re
from collections.abc import Iterator

from .utdf_links import LANES, WAYS, Links
from .utdf_links import TAKEN as LINKS
from .utdf_text import SECTIONS, Row, Utdf
from .utdf_volumes import DEST, PERMITTED
from .utdf_volumes import TAKEN as LANE_GROUPS

COMPUTED = (
    "Start", "End", "Yield", "Yield170", "LocalStart", "LocalYield", "LocalYield170", "ActGreen",
)  # fmt: skip
"""What Synchro computes of the other records of phases."""
PHASES = (
    "BRP", "MinGreen", "MaxGreen", "VehExt", "Yellow", "AllRed", "MinGap", "TimeBeforeReduce", "TimeToReduce", "Walk",
    "DontWalk", "Recall", "DualEntry", "PedCalls",
)  # fmt: skip
TIMEPLAN = ("Control Type", "Cycle Length", "Referenced To", "Reference Phase", "Offset")
TAKEN = {
    "links": LINKS, "lanes": (*LINKS, *LANE_GROUPS), "phases": PHASES, "timeplans": TIMEPLAN,
    "network": ("UTDFVERSION", "Metric"),
}  # fmt: skip
"""Of sections with a name for each record: the names that are taken."""
COLUMNS = {
    "nodes": ("INTID", "TYPE", "DESCRIPTION"),
    "layout": ("INTID", "INTNAME", "TYPE", *(f"{leg}_{it}" for leg in ("N", "S", "E", "W") for it in ("ID", "NAME")),
               *(f"{leg}_{it}" for leg in ("NE", "NW", "SE", "SW") for it in ("ID", "NAME"))),
    "plans": ("PLANID", "INTID", "CL", "OFF", "LD", "REF", "CLR", *(f"S{phase}" for phase in range(1, 17))),
}  # fmt: skip
"""Of sections with a row for each node: the columns that are read."""
FOR_VOLUMES = ("Lanes", "Shared", DEST, *PERMITTED)
"""Records of lane groups that only a file of volumes has a place for."""
OWN_NODE = re.compile(r"Node \d+")


NUMBERS = {
    "lanes": (*LANE_GROUPS, *(it for it in LINKS if it != "Name")), "phases": PHASES,
    "links": tuple(it for it in LINKS if it != "Name"),
}  # fmt: skip
"""Of sections: the records whose fields are numbers."""


def read_numbers(utdf: Utdf) -> None:
    """Reads every field of the records that are taken, so that all faults are found at once."""
    for section, names in NUMBERS.items():
        for row in utdf.records(section):
            for name, it in row.items() if row.get("RECORDNAME") in names else ():
                if name not in ("RECORDNAME", "INTID"):
                    utdf.number(it)


def has_value(section: str, row: Row) -> bool:
    """Tells whether a record says anything."""
    if OWN_NODE.fullmatch(row.get("RECORDNAME", "")):
        return row.get("DATA", "") not in ("", "0", row.get("INTID"))
    return any(it for name, it in row.items() if name not in ("RECORDNAME", "INTID"))


def listed(nodes: list[str], every: set[str]) -> str:
    """Returns the words for some nodes of a file."""
    if len(nodes) > 1 and set(nodes) == every:
        return "all nodes: "
    return f"node{'s'[: len(nodes) - 1]} {', '.join(nodes)}: " if nodes else ""


def records_left(utdf: Utdf, section: str, taken: tuple[str, ...]) -> Iterator[str]:
    """Yields the records of a section that aren't taken, those of the same nodes together."""
    left: dict[str, list[str]] = {}
    for row in utdf.records(section):
        name = str(row.get("RECORDNAME", ""))
        if name and name not in taken and has_value(section, row):
            left.setdefault(name, []).append(str(row.get("INTID", "")))
    by_nodes: dict[tuple[str, ...], list[str]] = {}
    for name, nodes in left.items():
        by_nodes.setdefault(tuple(filter(None, dict.fromkeys(nodes))), []).append(name)
    every = {str(row.get("INTID", "")) for row in utdf.records(section)}
    for of, names in by_nodes.items():
        front = f"{listed(list(of), every)}not taken from [{section.capitalize()}]: "
        computed = [name for name in names if section == "phases" and name in COMPUTED]
        if others := [name for name in names if name not in computed]:
            yield front + ", ".join(others)
        if computed:
            yield f"{front}{', '.join(computed)} (Synchro computes them of the others)"


def columns_left(utdf: Utdf, section: str) -> Iterator[str]:
    """Yields the columns of a section that aren't read."""
    rows = utdf.records(section)
    names = dict.fromkeys(name for row in rows for name, it in row.items() if it and name not in COLUMNS[section])
    if names:
        yield f"not taken from [{section.capitalize()}]: " + ", ".join(names)


def lane_columns_left(utdf: Utdf) -> Iterator[str]:
    """Yields the columns of lanes and links that are none of the ways known."""
    for section in ("lanes", "links"):
        names = dict.fromkeys(
            name
            for row in utdf.records(section)
            for name, it in row.items()
            if it and name not in ("RECORDNAME", "INTID", *WAYS) and not LANES.fullmatch(name)
        )
        if names:
            yield f"not taken from [{section.capitalize()}]: columns " + ", ".join(names)


def outside(links: Links) -> Iterator[str]:
    """Yields the words for lengths and times of approaches that no intersection with signals leads to."""
    led_to = {
        (found.node, found.way)
        for node in links.ends
        for approach in links.next.get(node, ())
        if (found := links.follow(*approach)) is not None
    }
    words = []
    for node in links.ends:
        ways = [it for it in WAYS if links.distance(node, it) or links.seconds(node, it)]
        if left := [it for it in ways if (node, it) not in led_to]:
            words.append(f"node {node} ({', '.join(left)})")
    if words:
        yield f"not taken from [Links]: Distance and Time of approaches from outside: {', '.join(words)}"


def without_phases(utdf: Utdf, links: Links) -> Iterator[str]:
    """Yields the words for nodes with lanes or counts that have no phases."""
    rows = (*utdf.records("lanes"), *utdf.records("volumes"))
    nodes = dict.fromkeys(str(it.get("INTID", "")) for it in rows if has_value("lanes", it))
    if left := [it for it in nodes if it and it not in links.ends]:
        yield f"no phases, so no intersection of the sheet: node{'s'[: len(left) - 1]} {', '.join(left)}"


def notes(utdf: Utdf, links: Links, has_volumes: bool) -> list[str]:
    """Returns the words for all that isn't taken; without volumes nothing of lane groups is, but what names phases."""
    taken = dict(TAKEN)
    if not has_volumes:
        taken["lanes"] = tuple(it for it in TAKEN["lanes"] if it not in FOR_VOLUMES)
    found = [note for section, names in taken.items() for note in records_left(utdf, section, names)]
    found += [note for section in COLUMNS for note in columns_left(utdf, section)]
    found += [*lane_columns_left(utdf), *outside(links), *without_phases(utdf, links)]
    found += [f"section [{name}] is not known" for name in utdf.sections if name not in SECTIONS]
    return found + [f"not understood: {it}" for it in dict.fromkeys(utdf.strange)]
