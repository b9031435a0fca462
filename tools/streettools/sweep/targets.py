"""Where a value is put: a path of the scenario, a cell of some cabinets' tables, a number of the traffic, the line
or the street."""

import re
from dataclasses import dataclass
from typing import Any

from ..shared.fault import Fault
from ..shared.given import NUMBER, Given

STEP = re.compile(r"([a-z_]+)|\[(\d+)\]")
PATH = re.compile(r"[a-z_]+(\[\d+\])*(\.[a-z_]+(\[\d+\])*)*")
PARTS = ("traffic", "line", "street", "volumes")
"""The tables of a study, next to the scenario, that a path may begin with."""
CELLS = {"phase": 2, "sequence": 2, "unit": 1, "pattern": 2, "split": 3, "preempt": 2}
"""How many numbers a cell has between the name of its table and its value."""
OPTIONAL = {
    "": ("community", "master", "inputs", "loads", "priority", "frames", "faults"),
    "cabinets": ("base", "cells", "pattern", "clock", "section", "gain", "lose"),
    "master": ("clock", "poll_every", "clock_every", "pattern_every", "retries", "schedule"),
    "traffic": ("factor",),
    "line": ("lose",),
    "volumes": ("factor",),
}
"""Names that may be put though they aren't there: if they are absent, the scenario has a default for them."""


@dataclass(frozen=True)
class Put:
    """A place, and its new value: plus + times * value, if the value is a number."""

    path: str | None
    cell: tuple[Any, ...] | None
    cabinets: tuple[int, ...] | None
    times: float
    plus: float

    def told(self) -> str:
        """Returns the place in words."""
        return self.path or f"the cell {list(self.cell or ())}"

    def value(self, value: Any) -> Any:
        """Returns the value that the place gets."""
        is_plain = self.times == 1 and self.plus == 0
        if is_plain or not isinstance(value, NUMBER) or isinstance(value, bool):
            return value
        result = self.plus + self.times * value
        return result if isinstance(result, int) else round(result, 9)

    def put(self, document: dict[str, Any], value: Any) -> None:
        """Puts a value into the scenario and the tables next to it."""
        if self.path is not None:
            put_at(document, self.path, self.value(value))
            return
        cabinets = document["scenario"]["cabinets"]
        for number in self.cabinets or range(1, len(cabinets) + 1):
            if number > len(cabinets):
                raise Fault(f"study: {self.told()}: the scenario has no cabinet {number}")
            it = cabinets[number - 1]
            it["cells"] = [*it.get("cells", ()), [*(self.cell or ()), self.value(value)]]


def steps(path: str) -> list[str | int]:
    """Returns the names and places of a path."""
    return [name or int(place) for name, place in STEP.findall(path)]


def put_at(document: dict[str, Any], path: str, value: Any) -> None:
    """Puts a value at a path, which has to be there, or to be a name that may be absent."""
    way = steps(path)
    if way[0] not in PARTS:
        way.insert(0, "scenario")
    *way, last = way
    there: Any = document
    for index, step in enumerate(way):
        if step == "master" and index == 1:
            there.setdefault("master", {})
        there = followed(there, step, path)
    known = OPTIONAL.get(next((it for it in reversed(way) if isinstance(it, str) and it != "scenario"), ""), ())
    if isinstance(last, int):
        followed(there, last, path)
    elif not isinstance(there, dict) or (last not in there and last not in known):
        raise absent(path)
    there[last] = value


def followed(there: Any, step: str | int, path: str) -> Any:
    """Returns the value a step further on."""
    fits = isinstance(there, list) if isinstance(step, int) else isinstance(there, dict)
    if not fits or not (step < len(there) if isinstance(step, int) else step in there):
        raise absent(path)
    return there[step]


def absent(path: str) -> Fault:
    """Returns the refusal of a path that isn't there."""
    return Fault(
        f"study: the scenario has no {path} (places in lists are counted from 0, as in cabinets[0].clock)"
    )


def cabinets_of(given: Given) -> tuple[int, ...] | None:
    """Reads the cabinets of a cell: a number, a list of numbers, or "all" (None)."""
    named = given.take("cabinet", (int, list, str), "all")
    if named == "all":
        return None
    numbers = named if isinstance(named, list) else [named]
    if not numbers or not all(isinstance(it, int) and 1 <= it <= 64 for it in numbers):
        raise given.refuse("cabinet", 'has to be a number from 1 to 64, a list of such, or "all"')
    return tuple(numbers)


def cell_of(given: Given) -> tuple[Any, ...]:
    """Reads a cell without its value."""
    cell = given.need("cell", list)
    name, *numbers = cell or [None]
    if not isinstance(name, str) or name not in CELLS:
        raise given.refuse("cell", f"has to begin with one of {', '.join(CELLS)}")
    if len(numbers) != CELLS[name] or not all(isinstance(it, int) for it in numbers):
        raise given.refuse("cell", f"has to be {name} and {CELLS[name]} whole numbers: the value comes from the study")
    return tuple(cell)


def put_of(given: Given) -> Put:
    """Reads a place, without the end of its table."""
    times, plus = given.take("times", NUMBER, 1), given.take("plus", NUMBER, 0)
    if given.only(("path", "cell")) == "cell":
        return Put(None, cell_of(given), cabinets_of(given), times, plus)
    path = given.need("path", str)
    if not PATH.fullmatch(path):
        raise given.refuse("path", f"is not a path: {path!r}; e.g. cabinets[0].clock")
    return Put(path, None, None, times, plus)
