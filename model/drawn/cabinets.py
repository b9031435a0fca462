"""A drawn cabinet: its cells, so that its tables keep the rules more often than not."""

from dataclasses import dataclass
from random import Random
from typing import Any

from model.drawn.plans import Plan, pattern_cells, preempt_cells, unit_cells
from model.drawn.structures import STANDARD, CellList, Structure, structure, structure_cells, time_cells
from model.plan import layout_force_point, zero_point
from model.rules import first_broken
from model.shapes import cell
from model.tables import BASES, Tables, rows

TRIES = 6
"""How often cells that break a rule are drawn again."""


@dataclass
class Drawn:
    """A cabinet: the object of the scenario, its structure, the patterns that its cells draw, and its preempts."""

    value: dict[str, Any]
    made: Structure
    plans: list[Plan]
    preempts: list[int]

    @property
    def patterns(self) -> list[int]:
        """Returns the numbers of its patterns."""
        return [it.number for it in self.plans]

    @property
    def held(self) -> list[int]:
        """Returns the phases that its patterns coordinate."""
        return [p for it in self.plans for p in it.held]


def tables_of(base: str, cells: list[CellList]) -> Tables:
    """Returns the tables that some cells make of a standard table."""
    return BASES[base].with_cells(cell(it, "cell") for it in cells)


def needs_of(tables: Tables, made: Structure) -> dict[int, int]:
    """Returns the seconds that each phase needs of a split: its minimum service and the longest clearance of its
    side."""
    row = rows(tables)
    needs = {}
    for side in made.sides:
        clear = max(row[p].clearance for ring in side for p in ring)
        needs |= {p: -(-(row[p].least_service + clear) // 10) for ring in side for p in ring}
    return needs


def room(tables: Tables, plans: list[Plan]) -> tuple[int, int]:
    """Returns the shortest window of some patterns, and the longest minimum service of their coordinated phases."""
    if not plans:
        return 50, 0
    windows = [
        min(layout_force_point(tables, it.number, p) for p in it.held) - zero_point(tables, it.number) for it in plans
    ]
    return min(windows), max(rows(tables)[p].least_service for it in plans for p in it.held)


def draw_cells(
    draw: Random, base: str, made: Structure, patterns: list[int], preempts: list[int]
) -> tuple[list[Plan], list[CellList]]:
    """Draws all cells of a cabinet, and the patterns that they are of."""
    cells = structure_cells(draw, made) + time_cells(draw, made)
    needs = needs_of(tables_of(base, cells), made)
    if 1 not in patterns:
        cells.append(["pattern", 1, 2, 0])
    plans: list[Plan] = []
    for number in patterns:
        plan, more = pattern_cells(draw, made, number, needs)
        plans.append(plan)
        cells += more
    for number in preempts:
        cells += preempt_cells(draw, made, number)
    return plans, cells + unit_cells(draw, *room(tables_of(base, cells), plans))


def kept_cells(
    draw: Random, base: str, made: Structure, patterns: list[int], preempts: list[int]
) -> tuple[list[Plan], list[CellList]]:
    """Draws cells until they keep the rules, or a few times."""
    for _ in range(draw.choice([1, *4 * [TRIES]])):
        plans, cells = draw_cells(draw, base, made, patterns, preempts)
        tables = tables_of(base, cells)
        if first_broken(tables, tables, False) is None:
            break
    return plans, cells


def simple(draw: Random, base: str) -> Drawn:
    """Draws a cabinet that differs little from a standard table."""
    offset = draw.randrange(90)
    few = [["unit", 1, draw.choice([2, 3, 4])], ["unit", 7, draw.choice([1, 2])]]
    cells = [["pattern", 1, 3, offset], *draw.sample(few, draw.randrange(3))]
    return Drawn({"base": base, "cells": cells}, STANDARD, [Plan(1, 90, offset, (2, 6))], [])


def clock(draw: Random, plans: list[Plan]) -> int:
    """Draws the opening clock: mostly one by which a pattern is picked up near its offset or anywhere in its cycle."""
    if plans and draw.random() < 0.7:
        plan = draw.choice(plans)
        cycles = draw.choice([0, 1, 400, 864_000 // (10 * plan.cycle)])
        early = draw.choice([draw.randint(-60, 60), draw.randrange(10 * plan.cycle)])
        return (10 * plan.offset - 60 + early + 10 * plan.cycle * cycles) % 864_000
    return draw.choice([0, 1, 863_999, 863_900, 863_000, draw.randrange(864_000), draw.randrange(2000)])


def cabinet(draw: Random, version: int) -> Drawn:
    """Draws a cabinet."""
    base = draw.choice(["std8", "max8"])
    if draw.random() < 0.12:
        drawn = simple(draw, base)
    else:
        made = structure(draw)
        patterns = sorted(draw.sample([1, 2, 3, 48], draw.choice([0, 1, 1, 1, 2])))
        preempts = sorted(draw.sample(range(1, 9), draw.choice([0, 0, 1, 2, 3])))
        plans, cells = kept_cells(draw, base, made, patterns, preempts)
        drawn = Drawn({"base": base, "cells": cells}, made, plans, preempts)
    drawn.value["pattern"] = draw.choice([0, 254, 255, 7, *12 * (drawn.patterns or [1])])
    drawn.value["clock"] = clock(draw, drawn.plans)
    drawn.value["section"] = draw.choice([1, 1, 2, 8])
    if version == 2 and draw.random() < 0.6:
        drawn.value[draw.choice(["gain", "lose"])] = draw.choice([0, 12_000, 12_001, 864_000])
    return drawn
