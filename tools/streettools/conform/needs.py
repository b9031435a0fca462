"""What a test asks for that the device doesn't have."""

from collections.abc import Iterator

from ..shared.tables import Tables
from . import steps
from .objects import FLASH, FREE
from .scripts import Script

WALK, DWELL = 2, 13


def lacking(script: Script, tables: Tables, phases: int) -> Iterator[str]:
    """Yields what a test needs and the device doesn't have, with the tables of the test in force. `phases` is the
    number of phases that the device shows."""
    patterns = {int(word[8:].split()[0]) for load in script.loads.values() for word in load if is_pattern(word)}
    for act in (script.start, *script.acts):
        if act.kind in (steps.VEH, steps.PED) and (act.number > phases or not tables.option(act.number, 1)):
            yield f"phase {act.number} isn't enabled"
        elif act.kind == steps.PED and not tables.phase(act.number, WALK):
            yield f"phase {act.number} has no walk"
        elif act.kind == steps.PREEMPT and not tables.cells.get(("preempt", act.number, DWELL)):
            yield f"preempt {act.number} has no dwell phases"
        elif act.kind == steps.PATTERN and act.number not in (FREE, FLASH):
            if not tables.pattern(act.number, 2) and act.number not in patterns:
                yield f"pattern {act.number} isn't defined"


def is_pattern(word: object) -> bool:
    """Tells whether a line of a load is a cell of a pattern."""
    return isinstance(word, str) and word.startswith("pattern ") and word[8:].split()[0].isdecimal()
