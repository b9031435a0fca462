"""A street as UTDF, version 8: its nodes, links, lane groups, timing plans and phases."""

import csv
import io
from typing import Any

from ..cosim.queues.volumes import Volumes
from ..shared.cells import tables_of, value
from ..shared.tables import Tables
from . import drawing, fields
from .layout import Layout
from .names import Intersection
from .reading import Street
from .utdf_lanes_out import Writing, lane_rows, link_rows, shown

DIRECTIONS = [f"D{phase}" for phase in range(1, 17)]
RECALLS = {"none": 0, "minimum": 1, "pedestrian": 2, "maximum": 3}
ACTUATED, SEMI_ACTUATED, COORDINATED = 1, 2, 3
BEGIN_OF_GREEN = 0


def recall(options: int) -> int:
    """Returns the recall of a phase; of several the strongest, since UTDF has one."""
    found = fields.show_option("recall", options)
    words = found if isinstance(found, list) else [found]
    return RECALLS[next(it for it in ("maximum", "minimum", "pedestrian", "none") if it in (*words, "none"))]


def brp(drawn: drawing.Drawing) -> dict[int, int]:
    """Returns barrier, ring and position of each phase."""
    found = {}
    for barrier, side in enumerate(drawn.sides, 1):
        for ring, phases in enumerate(side, 1):
            for position, phase in enumerate(phases, 1):
                found[phase] = 100 * barrier + 10 * ring + position
    return found


def of_phases(tables: Tables, known: Intersection, pattern: int) -> dict[str, dict[int, str]]:
    """Returns the records of a node's phases. The greatest green is what the pattern's split leaves, where it is
    defined."""
    drawn = drawing.of_tables(tables)
    places = brp(drawn) if drawn else {}
    phases = [it for it in tables.enabled() if it not in known.partners]
    laid = Layout(tables, pattern) if pattern in tables.patterns() else None

    def each(column: int, scale: int = 1) -> dict[int, str]:
        return {it: shown(value(tables, ("phase", it, column)) / scale) for it in phases}

    def most(phase: int) -> str:
        return (
            shown((laid.time(phase) - tables.clearance(phase)) / 10)
            if laid
            else shown(value(tables, ("phase", phase, 6)))
        )

    crossings = [it for it in phases if value(tables, ("phase", it, 2))]
    return {
        "BRP": {it: str(places.get(it, "")) for it in phases}, "MinGreen": each(4),
        "MaxGreen": {it: most(it) for it in phases},
        "VehExt": each(5, 10), "TimeBeforeReduce": each(13), "TimeToReduce": each(15), "MinGap": each(17, 10),
        "Yellow": each(8, 10),
        "AllRed": each(9, 10), "Recall": {it: str(recall(value(tables, ("phase", it, 21)))) for it in phases},
        "Walk": {it: each(2)[it] for it in crossings}, "DontWalk": {it: each(3)[it] for it in crossings},
        "DualEntry": {it: str(int(bool(value(tables, ("phase", it, 21)) & fields.DUAL_ENTRY))) for it in phases},
    }  # fmt: skip


def of_plan(tables: Tables, known: Intersection, pattern: int, runs: bool) -> dict[str, str]:
    """Returns the records of a node's timing plan. `runs` tells whether a pattern is commanded at all."""
    if pattern not in tables.patterns():
        return {"Control Type": str(ACTUATED)}
    laid = Layout(tables, pattern)
    pair = [it for it in laid.coordinated if it not in known.partners]
    offset = value(tables, ("pattern", pattern, 3))
    if value(tables, ("unit", 8)) == 2:
        offset = (offset - laid.window / 10) % (laid.cycle / 10)
    return {
        "Control Type": str(COORDINATED if runs else SEMI_ACTUATED), "Cycle Length": shown(laid.cycle / 10),
        "Referenced To": str(BEGIN_OF_GREEN),
        "Reference Phase": str(sum(it * scale for it, scale in zip(pair, (100, 1), strict=False))),
        "Offset": shown(offset),
    }  # fmt: skip


def is_pattern(command: int) -> bool:
    """Tells whether a command is that of a pattern."""
    return 1 <= command <= 48


def runs_patterns(street: Street, cabinet: dict[str, Any]) -> bool:
    """Tells whether a cabinet is commanded a pattern, at the start or by the schedule."""
    schedule = street.scenario.get("master", {}).get("schedule", [])
    section = cabinet.get("section", 1)
    return is_pattern(cabinet.get("pattern", 0)) or any(
        is_pattern(it["pattern"]) for it in schedule if it["section"] == section
    )


def node_rows(street: Street) -> list[list[Any]]:
    """Returns the rows of the nodes, one behind the other by their distances."""
    rows: list[list[Any]] = [["INTID", "TYPE", "X", "Y", "Z", "DESCRIPTION"]]
    at = 0.0
    for number in range(1, len(street.scenario["cabinets"]) + 1):
        known = street.names.intersection(number)
        rows.append([number, 0, shown(at), 0, 0, known.name])
        at += known.distance or 1000
    return rows


def plan_rows(street: Street, pattern: int, notes: list[str]) -> list[list[Any]]:
    """Returns the rows of the timing plans."""
    rows: list[list[Any]] = [["RECORDNAME", "INTID", "DATA"]]
    for number, cabinet in enumerate(street.scenario["cabinets"], 1):
        tables, runs = tables_of(cabinet), runs_patterns(street, cabinet)
        if pattern in tables.patterns() and not runs:
            notes.append(f"intersection {number} is commanded no pattern, so it is semi-actuated (control type 2)")
        found = of_plan(tables, street.names.intersection(number), pattern, runs)
        rows += [[record, number, data] for record, data in found.items()]
    return rows


def phase_rows(street: Street, pattern: int, writing: Writing) -> list[list[Any]]:
    """Returns the rows of the phases."""
    rows: list[list[Any]] = [["RECORDNAME", "INTID", *DIRECTIONS]]
    for number, cabinet in enumerate(street.scenario["cabinets"], 1):
        found = of_phases(tables_of(cabinet), street.names.intersection(number), pattern)
        persons = writing.groups[number].lanes.get("PedCalls", {})
        if persons:
            found["PedCalls"] = {int(phase): it for phase, it in persons.items()}
        for record, phases in found.items():
            rows.append([record, number, *(phases.get(phase, "") for phase in range(1, 17))])
    return rows


def written(street: Street, pattern: int, volumes: Volumes | None = None) -> tuple[str, list[str]]:
    """Returns the text of a UTDF file, and what isn't in it."""
    out = io.StringIO()
    lines = csv.writer(out, lineterminator="\r\n")
    writing = Writing(street, volumes)
    notes = writing.notes
    network: list[list[Any]] = [["RECORDNAME", "DATA"], ["UTDFVERSION", "8"]]
    network.append(["Metric", int(street.names.units == "metric")])
    for title, second, rows in (
        ("Network", "Network Settings", network), ("Nodes", "Node Data", node_rows(street)),
        ("Links", "Link Data", link_rows(writing)), ("Lanes", "Lane Group Data", lane_rows(writing)),
        ("Timeplans", "Timing Plan Settings", plan_rows(street, pattern, notes)),
        ("Phases", "Phasing Data", phase_rows(street, pattern, writing)),
    ):  # fmt: skip
        lines.writerows([[f"[{title}]"], [second]])
        lines.writerows([*rows, []])
    return out.getvalue(), notes


def text(street: Street, pattern: int, volumes: Volumes | None = None) -> str:
    """Returns the text of a UTDF file."""
    return written(street, pattern, volumes)[0]
