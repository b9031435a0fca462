"""What the rings do on the way to a goal: certain phases, at most one of each ring, that a mode brings to Green.

docs/DEFINITIONS.md, "A tick: rings": `goal_moves`.
"""

from model import sides
from model.lesser import hurry, is_served
from model.past import Past
from model.rings import is_startable, phases_on
from model.tables import rows
from model.words import RINGS, Mode


def goal_ends(past: Past, mode: Mode, goal: frozenset[int]) -> set[int]:
    """Returns the phases that turn Yellow: each Green phase outside the goal that has been served."""
    green = past.last.frame.lights.green
    return {p for p in green if p not in goal and is_served(past, p, hurry(past, mode, goal, p))}


def in_the_way(past: Past, p: int) -> list[int]:
    """Returns the phases that stay on and keep a phase of the goal from turning Green: that of its ring, and that of
    the other ring where it is of another side."""
    on, ring = phases_on(past), rows(past.tables)[p].ring
    own, other = on.get(ring), on.get(3 - ring)
    crossing = other is not None and other not in sides.side(past.tables, p)
    return [q for q, bars in ((own, own is not None), (other, crossing)) if bars]


def goal_begins(past: Past, goal: frozenset[int]) -> set[int]:
    """Returns the phases of the goal that turn Green: their ring is open, and the other is too or serves their side."""
    row = rows(past.tables)
    return {p for p in goal if row[p].ring in RINGS and not in_the_way(past, p) and is_startable(past, p)}
