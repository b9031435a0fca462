"""An intersection of a sheet, begun: the standard table, the rings as drawn, and the partners that they need."""

from collections.abc import Callable
from dataclasses import dataclass, field

from ..shared.given import Given, Wrong
from ..shared.tables import Tables
from . import drawing, fields, names
from ..shared.cells import put, value


@dataclass
class Read:
    """What was read of an intersection: its tables, its names, what was entered for it, the drawing."""

    base: str
    tables: Tables
    names: names.Intersection
    notes: list[str] = field(default_factory=list)
    doubts: list[str] = field(default_factory=list)
    drawn: drawing.Drawing = drawing.STANDARD
    partners: dict[int, int] = field(default_factory=dict)


def word_of(*words: str) -> Callable[[object], str]:
    """Returns a reader of one of some words."""

    def read(it: object) -> str:
        if not isinstance(it, str) or it not in words:
            known = ", ".join(f'"{word}"' for word in words)
            raise Wrong(f"expected one of {known}, found {it!r}")
        return it

    return read


def started(it: Given) -> Read:
    """Returns the intersection with its standard table and its rings."""
    base = it.read("standard", word_of("std8", "max8"), "std8")
    found = Read(base, Tables(base), names.Intersection())
    word = word_of("vehicle", "pedestrian")
    kinds = {number: row.read("kind", word, "vehicle") for number, row in it.numbered("phase", 16)}
    drawn = it.read("rings", drawing.read)
    if drawn is not None:
        try:
            found.drawn, found.partners = drawing.with_partners(drawn)
        except Wrong as wrong:
            it.fault(wrong, "rings")
        drawing.apply(found.tables, found.drawn)
    for number, kind in kinds.items():
        if kind == "pedestrian":
            crossing_alone(found.tables, number)
    for partner, like in found.partners.items():
        found.notes.append(
            f"phase {partner} is added next to phase {like}: the rings need a placeholder phase there; nothing calls it"
        )
    found.names.partners = sorted(found.partners)
    return found


def crossing_alone(tables: Tables, phase: int) -> None:
    """Gives a phase the times of a crossing without vehicles; yellow is the buffer after the clearance."""
    kept = value(tables, ("phase", phase, 21)) & fields.ENABLED
    for column, new in {2: 7, 3: 0, 4: 0, 5: 0, 6: 0, 8: 30, 9: 0, 10: 20, 20: 2, 21: kept}.items():
        put(tables, ("phase", phase, column), new)
