"""Cells of a cabinet's tables in the words of a sheet, as `pattern 1, offset: 40 to 42`."""

from collections.abc import Mapping
from typing import Any

from ..shared.cells import Lists, kinds
from ..shared.tables import Cell, Value
from . import fields

SPLIT_COLUMNS = {3: "seconds", 4: "mode", 5: "coordinated"}


def field_of(of: Mapping[str, Any], column: int) -> tuple[str, Any]:
    """Returns the field of a column, with its name."""
    return next((name, it) for name, it in of.items() if it.column == column)


def place(cell: Cell) -> str:
    """Returns where a cell is, as a sheet has it."""
    match cell:
        case ("phase", phase, 21):
            return f"phase {phase}, options"
        case ("phase", phase, column):
            return f"phase {phase}, {field_of(fields.PHASE_FIELDS, column)[0]}"
        case ("unit", column):
            return f"coordination, {field_of(fields.UNIT_FIELDS, column)[0]}"
        case ("pattern", number, column):
            return f"pattern {number}, {field_of(fields.PATTERN_FIELDS, column)[0]}"
        case ("split", number, phase, column):
            return f"split {number}, phase {phase}, {SPLIT_COLUMNS[column]}"
        case ("sequence", number, ring):
            return f"sequence {number}, ring {ring}"
        case ("preempt", number, column):
            return f"preempt {number}, {field_of(fields.PREEMPT_FIELDS, column)[0]}"
    raise AssertionError(f"{cell} is not a cell")


def fits(cell: Cell, value: Value) -> bool:
    """Tells whether a value may be in a cell: a device can say others."""
    kind = kinds()[cell]
    if isinstance(kind, Lists):
        return isinstance(value, tuple)
    return isinstance(value, int) and kind.least <= value <= kind.most


def shown(cell: Cell, value: Value) -> str:
    """Returns what is in a cell, in seconds or words, as a sheet has it; what can't be in it as it is."""
    if not fits(cell, value):
        return " ".join(map(str, value)) if isinstance(value, tuple) else str(value)
    match cell:
        case ("phase", _, 21):
            found: object = ", ".join(f"{name} {fields.show_option(name, value)}" for name in fields.OPTIONS)
        case ("phase", _, column):
            found = field_of(fields.PHASE_FIELDS, column)[1].show(value)
        case ("unit", column):
            found = field_of(fields.UNIT_FIELDS, column)[1].show(value)
        case ("preempt", _, column):
            found = field_of(fields.PREEMPT_FIELDS, column)[1].show(value)
        case ("split", _, _, 4):
            found = fields.SPLIT_MODES.show(value)
        case ("split", _, _, 5):
            found = "yes" if value else "no"
        case _:
            found = value
    return (" ".join(map(str, found)) or "none") if isinstance(found, (tuple, list)) else str(found)


def change(cell: Cell, old: Value, new: Value) -> str:
    """Returns a change of a cell in words."""
    if cell[0] == "phase" and cell[2] == 21:
        names = [it for it in fields.OPTIONS if fields.show_option(it, old) != fields.show_option(it, new)]
        said = (f"{it} {fields.show_option(it, old)} to {fields.show_option(it, new)}" for it in names)
        return f"phase {cell[1]}, " + ", ".join(said)
    return f"{place(cell)}: {shown(cell, old)} to {shown(cell, new)}"
