"""A UTDF file as a sheet: rings by BRP, times, recalls, splits and offsets, names and speeds of streets, and as a file
of volumes. What isn't taken is named."""

from typing import Any, NamedTuple

from ..shared.cells import tables_of
from . import rules
from .reading import read_sheet, street_of
from .utdf_left import notes, read_numbers
from .utdf_links import LANES, WAYS, Links
from .utdf_node import Node
from .utdf_plan import is_free, left_out, pair_of, pattern, plans
from .utdf_text import Utdf
from .utdf_volumes import PROTECTED, document, tidy

PATTERN_RULES = (14, 15, 16, 17, 18, 19)
UNCOORDINATED = "it is semi-actuated and not coordinated (control type 2)"

TENTHS = {"VehExt": "passage", "Yellow": "yellow", "AllRed": "red_clear", "MinGap": "min_gap"}
SECONDS = {
    "MinGreen": "min_green", "MaxGreen": "max_green", "Walk": "walk", "DontWalk": "ped_clear",
    "TimeBeforeReduce": "time_before_reduction",
    "TimeToReduce": "time_to_reduce",
}  # fmt: skip
RECALLS = {0: "none", 1: "minimum", 2: "pedestrian", 3: "maximum"}
TURNS = {"L": "left", "T": "", "R": "right", "U": "U-turn"}


def rings(node: Node) -> list[str]:
    """Returns the rings as a sheet draws them, by barrier, ring and position."""
    places: dict[tuple[int, int], list[tuple[int, int]]] = {}
    for phase in node.used:
        brp = node.whole_at("BRP", phase) or 0
        barrier, ring, position = brp // 100, brp // 10 % 10, brp % 10
        if ring not in (1, 2) or not barrier:
            node.note(
                f"phase {phase} is left out: barrier, ring and position are {brp}, and only rings 1 and 2 exist"
            )
        else:
            places.setdefault((barrier, ring), []).append((position, phase))
    node.used = [phase for phase in node.used if any(phase == it for row in places.values() for _, it in row)]
    barriers = sorted({barrier for barrier, _ in places})
    lines = []
    for ring in (1, 2):
        sides = [
            " ".join(str(phase) for _, phase in sorted(places.get((barrier, ring), ()))) or "-" for barrier in barriers
        ]
        lines.append(" | ".join(sides))
    return lines if any(set(line) - set("- |") for line in lines[1:]) else lines[:1]


def movements(node: Node) -> dict[int, list[str]]:
    """Returns the lane groups that each phase serves protected, as EBT."""
    found: dict[int, list[str]] = {}
    for record in PROTECTED:
        for lanes in node.lanes.get(record, {}):
            phase = node.whole_lane(record, lanes) if LANES.fullmatch(lanes) else None
            if phase:
                found.setdefault(phase, []).append(lanes)
    return found


def about_phases(node: Node, rows: dict[str, dict[str, Any]]) -> None:
    """Says names and speeds of the phases."""
    served = movements(node)
    for phase in node.used:
        lanes = sorted(served.get(phase, ()), key=lambda it: "TLRU".index(it[2]))
        if not lanes:
            continue
        way, turn = lanes[0][:2], lanes[0][2]
        street = node.links.name(node.number, way)
        rows[str(phase)]["name"] = " ".join(filter(None, (street, WAYS[way], TURNS[turn])))
        speed = node.links.speed(node.number, way)
        if turn == "T" and speed:
            rows[str(phase)]["speed"] = tidy(speed)


def detectors(node: Node) -> dict[str, dict[str, Any]]:
    """Returns a detector for each lane group that has one, numbered in the order of the file: the phase that it calls,
    its delay and extension."""
    found: dict[str, dict[str, Any]] = {}
    for lanes in node.lanes.get("DetectPhase1", {}):
        phase = node.whole_lane("DetectPhase1", lanes) if LANES.fullmatch(lanes) else None
        if not phase:
            continue
        row: dict[str, Any] = {"name": lanes, "phase": phase}
        for record, name in (("DetectDelay1", "delay"), ("DetectExtend1", "extend")):
            value = node.lane(record, lanes)
            if value:
                row[name] = node.whole(value, record, lanes)
        found[str(len(found) + 1)] = row
    return found


def phase_row(node: Node, phase: int) -> dict[str, Any]:
    """Returns the row of a phase."""
    row: dict[str, Any] = {}
    for record, name in SECONDS.items():
        value = node.at(record, phase)
        if value is not None:
            row[name] = node.whole(value, record, f"phase {phase}")
    for record, name in TENTHS.items():
        value = node.at(record, phase)
        if value is not None:
            row[name] = round(value, 1)
            if abs(row[name] - value) > 1e-9:
                node.note(
                    f"{record} of phase {phase}, {value:g} s, is rounded to {row[name]:g} s: a cabinet stores tenths"
                )
    row.setdefault("walk", 0)
    row.setdefault("ped_clear", 0)
    recall = node.at("Recall", phase) or 0
    if recall not in RECALLS:
        entry = node.phases["Recall"][f"D{phase}"]
        node.utdf.fault(entry, f"recall {recall:g} is not known: 0 none, 1 minimum, 2 pedestrian, 3 maximum")
    row["recall"] = RECALLS.get(int(recall), "none")
    row["dual_entry"] = bool(node.at("DualEntry", phase))
    return row


def patterns_of(node: Node, drawn: list[str], sheet: dict[str, Any]) -> dict[str, Any]:
    """Returns the patterns of an intersection, and which is in command. That of a semi-actuated one is taken where it
    keeps the rules, and isn't in command: it runs free."""
    laid = pattern(node, drawn)
    found = {"1": laid} if laid else plans(node, drawn)
    if not laid or not is_free(node):
        return {"pattern": found, "command": 1} if found else {}
    street, faults = read_sheet({"intersection": [{**sheet, "pattern": found}]})
    tables = tables_of(street.scenario["cabinets"][0])
    if faults or any(it.rule in PATTERN_RULES for it in rules.broken(tables)):
        left_out(node, f"{UNCOORDINATED}, and its splits keep no pattern's rules")
        return {}
    node.note(f"{UNCOORDINATED}: it runs free; its timing plan is pattern 1")
    return {"pattern": found}


def intersection(node: Node) -> dict[str, Any]:
    """Returns an intersection of the sheet."""
    drawn = rings(node)
    rows = {str(phase): phase_row(node, phase) for phase in node.used}
    about_phases(node, rows)
    pair = pair_of(node, drawn)
    for phase in node.used:
        rows[str(phase)]["startup"] = "green" if phase in pair or (not pair and phase in (2, 6)) else "red"
    sheet: dict[str, Any] = {"name": node.name(), "rings": drawn, "phase": rows}
    called = detectors(node)
    return sheet | patterns_of(node, drawn, sheet) | ({"detector": called} if called else {})


def travels(nodes: list[Node], rows: list[dict[str, Any]]) -> None:
    """Says how long vehicles drive from each intersection to the next one, and how far."""
    missing = []
    for before, after, row in zip(nodes, nodes[1:], rows):
        found = before.links.between(before.number, after.number)
        if found is None:
            missing.append(f"{before.number} to {after.number}")
            continue
        if found.seconds:
            row["travel"] = tidy(found.seconds)
        if found.distance:
            row["distance"] = tidy(found.distance)
    if missing:
        nodes[0].utdf.notes.append(f"no link leads from node {', '.join(missing)}, so there is no travel")


class Imported(NamedTuple):
    """What a UTDF file comes to: a sheet, a file of volumes (empty where it has none), and what wasn't taken."""

    sheet: dict[str, Any]
    volumes: dict[str, Any]
    notes: list[str]


def imported(utdf: Utdf) -> Imported:
    """Returns what a UTDF file comes to; Unreadable where fields can't be read."""
    read_numbers(utdf)
    links = Links(utdf)
    numbers = dict.fromkeys(str(it.get("INTID", "")) for it in utdf.records("phases"))
    nodes = [node for node in (Node(utdf, it, links) for it in numbers if it) if node.used]
    links.ends = [it.number for it in nodes]
    sheet: dict[str, Any] = {"units": "metric"} if links.metric else {}
    rows = [intersection(it) for it in nodes]
    travels(nodes, rows)
    sheet["intersection"] = rows
    utdf.end()
    cabinets = street_of(sheet).scenario["cabinets"] if rows else []
    volumes = document(nodes, links, utdf, "", [list(tables_of(it).enabled()) for it in cabinets])
    utdf.end()
    found = [note for it in nodes for note in it.all_notes()] + utdf.notes + notes(utdf, links, bool(volumes))
    return Imported(sheet, volumes, found)


def sheet_of(utdf: Utdf) -> tuple[dict[str, Any], list[str]]:
    """Returns a UTDF file as a sheet, and what wasn't taken as it stands."""
    found = imported(utdf)
    return found.sheet, found.notes
