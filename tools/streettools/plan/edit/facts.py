"""What a page draws of a plan: intersections, windows and rings of a pattern, and what the rules say of the chosen
intersection. Times are ticks, values that are edited are seconds."""

from typing import Any

from ...shared.cells import value
from ...shared.plans import Plan as Laid
from ...shared.plans import plan as laid_plan
from ...shared.given import Wrong
from ...shared.tables import Tables
from .. import rules
from ..fields import PHASE_FIELDS, UNIT_FIELDS
from ..layout import Layout, least_service
from ..names import Intersection
from ..pattern_rules import has_pair
from . import edges
from .changes import LIMITS, TIMES
from .plans import Plan

Facts = dict[str, Any]


def laid_or_none(tables: Tables, pattern: int) -> Laid | None:
    """Returns a pattern laid over its cycle; None if there is none, or if it can't be laid out."""
    try:
        return laid_plan(tables, pattern) if pattern in tables.patterns() else None
    except (KeyError, ValueError, TypeError):
        return None


def row(plan: Plan, number: int, pattern: int) -> Facts:
    """Returns what the diagram has of an intersection: its offset, and the windows of both ways as starts and lengths
    from local zero."""
    known, tables = plan.names.intersection(number), plan.of(number)
    found: Facts = {"number": number, "name": plan.names.called(number), "travel": known.travel}
    laid = laid_or_none(tables, pattern)
    if laid is not None:
        found |= {"cycle": laid.cycle, "offset": laid.offset, "shift": laid.shift, "pair": laid.coordinated,
                  "windows": [laid.force[it] for it in laid.coordinated]}  # fmt: skip
    elif pattern in tables.patterns():
        found |= {"cycle": 10 * tables.pattern(pattern, 2), "offset": 10 * tables.pattern(pattern, 3)}
    return found


def street(plan: Plan, chosen: int, pattern: int) -> list[Facts]:
    """Returns the rows of the section of an intersection, from the first to the last."""
    return [row(plan, number, pattern) for number in plan.group(chosen)]


def phase_facts(tables: Tables, known: Intersection, phase: int) -> Facts:
    """Returns the times of a phase."""
    times = {name: PHASE_FIELDS[name].show(value(tables, ("phase", phase, PHASE_FIELDS[name].column)))
             for name in TIMES}  # fmt: skip
    return {"phase": phase, "name": known.phase(phase).name, "partner": phase in known.partners,
            "service": least_service(tables, phase), "clearance": tables.clearance(phase), **times}  # fmt: skip


def can_be_drawn(tables: Tables, pattern: int) -> bool:
    """Tells whether the rings of a pattern can be drawn."""
    return pattern in tables.patterns() and not any(it.rule < 10 or it.rule == 14 for it in rules.broken(tables))


def ring_facts(tables: Tables, pattern: int, known: Intersection) -> Facts:
    """Returns the rings of a pattern: the slots of its phases, what each lacks, its edges with their limits, and the
    pairs that can change places."""
    laid = Layout(tables, pattern)
    slots, found_edges, swaps = [], [], []
    for ring, order in enumerate(laid.orders, 1):
        for at, phase in enumerate(order):
            start, end = laid.slots[phase]
            slots.append({
                "phase": phase, "ring": ring, "start": start, "end": end, "coordinated": phase in laid.coordinated,
                "omitted": laid.is_omitted(phase),
                "room": laid.room(phase) if phase in laid.waited() else None,
            })  # fmt: skip
            if at + 1 < len(order):
                found_edges.append(edge_facts(tables, laid, phase, ring, known))
                if laid.side(phase) == laid.side(order[at + 1]):
                    swaps.append([phase, order[at + 1]])
    found: Facts = {"cycle": laid.cycle, "slots": slots, "edges": found_edges, "swaps": swaps}
    if has_pair(tables, pattern):
        found |= {"zero": laid.zero, "window": laid.window, "room": laid.window_room(),
                  "end": value(tables, ("unit", 8)) == 2}  # fmt: skip
    return found


def edge_facts(tables: Tables, laid: Layout, phase: int, ring: int, known: Intersection) -> Facts:
    """Returns an edge: where it is, whether it is a barrier, and how far it may move."""
    by = edges.shifts(laid, phase)
    ends = edges.limits(tables, laid, by, known)
    return {"phase": phase, "ring": ring, "at": laid.slots[phase][1], "barrier": len(by) > 2, "by": by,
            "least": ends.least, "most": ends.most, "left": ends.left, "right": ends.right}  # fmt: skip


def chosen(plan: Plan, number: int, pattern: int) -> Facts:
    """Returns what the page has of the chosen intersection."""
    tables, known = plan.of(number), plan.names.intersection(number)
    found: Facts = {
        "number": number, "name": plan.names.called(number), "pattern": pattern, "patterns": tables.patterns(),
        "offset": value(tables, ("pattern", pattern, 3)), "cycle": value(tables, ("pattern", pattern, 2)),
        "phases": [phase_facts(tables, known, it) for it in tables.enabled()],
        "limits": {name: UNIT_FIELDS[name].show(value(tables, ("unit", UNIT_FIELDS[name].column))) for name in LIMITS},
    }  # fmt: skip
    if can_be_drawn(tables, pattern):
        try:
            found["rings"] = ring_facts(tables, pattern, known)
        except (Wrong, KeyError, ValueError, IndexError):
            pass
    return found


def facts(plan: Plan, number: int, pattern: int) -> Facts:
    """Returns all that a page draws of a plan, except for the run."""
    return {"street": street(plan, number, pattern), "chosen": chosen(plan, number, pattern),
            "patterns": plan.patterns()}  # fmt: skip
