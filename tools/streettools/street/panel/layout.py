"""What a page must know of a cabinet's tables: its rings, and its patterns laid out.

By the tables with which the cabinet opens; after a download by those that are in force then (`in_force`).
"""

from typing import Any

from ...shared.plans import plan
from ...shared.tables import Tables

Facts = dict[str, Any]
WALK, DWELL, PREEMPTS = 2, 13, range(1, 9)
"""The columns of a phase's walk and of a preempt's dwell phases; the numbers of preempts."""


def sides(tables: Tables) -> list[list[int]]:
    """Returns the enabled phases by sides of the barrier, each side once."""
    found: list[list[int]] = []
    for phase in tables.enabled():
        side = sorted(tables.side(phase))
        if side and side not in found and not any(phase in other for other in found):
            found.append(side)
    return found


def rings(tables: Tables, sequence: int) -> list[list[int]]:
    """Returns the enabled phases of each ring in the order of a sequence."""
    enabled = tables.enabled()
    found = []
    for ring in (1, 2):
        order = [phase for phase in tables.sequence(sequence, ring) if phase in enabled]
        found.append(order + [it for it in enabled if tables.phase(it, 22) == ring and it not in order])
    return found


def pattern_facts(tables: Tables, number: int) -> Facts | None:
    """Returns a pattern laid out, None where it can't be."""
    try:
        laid = plan(tables, number)
    except (KeyError, ValueError, TypeError):
        return None
    if laid is None:
        return None
    return {
        "cycle": laid.cycle,
        "offset": laid.offset,
        "coordinated": list(laid.coordinated),
        "rings": rings(tables, tables.pattern(number, 5)),
        "splits": {phase: tables.split(tables.pattern(number, 4), phase, 3) for phase in tables.enabled()},
    }


def facts(number: int, tables: Tables, version: int = 0) -> Facts:
    """Returns what a page must know of a cabinet, whose tables have this version."""
    patterns = {it: laid for it in tables.patterns() if (laid := pattern_facts(tables, it))}
    return {
        "number": number,
        "version": version,
        "phases": tables.enabled(),
        "walks": [it for it in tables.enabled() if tables.phase(it, WALK)],
        "preempts": [it for it in PREEMPTS if tables.cells.get(("preempt", it, DWELL))],
        "rings": rings(tables, 1),
        "sides": sides(tables),
        "patterns": patterns,
    }


def street_facts(scenario: dict[str, Any]) -> list[Facts]:
    """Returns the facts of all cabinets as a session begins."""
    return [
        facts(number, Tables(setup.get("base", "std8"), setup.get("cells", ())))
        for number, setup in enumerate(scenario["cabinets"], 1)
    ]
