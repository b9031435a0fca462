"""The downloads that bring cabinets from one plan to another, each of which keeps the rules."""

from ..shared.fault import Fault
from ..shared.tables import Cell, Tables
from . import rules
from ..shared.cells import differing, tables_of, value, written
from .names import Intersection
from .pattern_sentences import sentences
from .reading import Street

MOST_CELLS = 768
CELLS_OF_A_PART = 24
FLASH_RULE = 21


class NoWay(Fault):
    """Cabinets can't be brought from one plan to the other, in words."""


def put_all(tables: Tables, new: Tables, cells: list[Cell]) -> Tables:
    """Returns tables with some cells of others."""
    found = tables.copy()
    for cell in cells:
        found.cells[cell] = value(new, cell)
    return found


def groups(cells: list[Cell]) -> list[list[Cell]]:
    """Returns cells in groups that belong together: each split, each preempt, the rest of the tables, each pattern."""
    found: dict[tuple, list[Cell]] = {}
    for cell in cells:
        key = cell[:2] if cell[0] in ("split", "preempt", "pattern") else ("street",)
        found.setdefault(key, []).append(cell)
    order = {"preempt": 0, "street": 1, "split": 2, "pattern": 3}
    return [found[key] for key in sorted(found, key=lambda it: (order[it[0]], it[1:]))]


def packed(old: Tables, new: Tables, cells: list[Cell], may: set[int]) -> list[list[Cell]] | None:
    """Returns cells as downloads, each of which keeps the rules (or breaks those that it may), of whole groups; None
    if that can't be."""
    found: list[list[Cell]] = []
    waiting, now = groups(cells), old
    while waiting:
        load: list[Cell] = []
        best = 0
        for count, group in enumerate(waiting, 1):
            load = load + group
            if len(load) > MOST_CELLS:
                break
            if all(it.rule in may for it in rules.broken(put_all(now, new, load), now)):
                best = count
        if not best:
            return None
        load = [cell for group in waiting[:best] for cell in group]
        found.append(load)
        now, waiting = put_all(now, new, load), waiting[best:]
    return found


def downloads(old: Tables, new: Tables, flash: bool = False) -> list[list[list]]:
    """Returns the downloads, as lists of cells, from old to new tables. If no other order keeps the rules, the first
    removes the old patterns, which the last define again. `flash` means that the cabinet flashes when they arrive.
    Raises NoWay if the rules refuse the new tables, or if no order of downloads keeps them."""
    may = {FLASH_RULE} if flash else set()
    wrong = [it for it in rules.broken(new, old) if it.rule not in may]
    if wrong:
        raise NoWay("; ".join(sentences(new, Intersection(), wrong[0], old)))
    cells = differing(old, new)
    whole = packed(old, new, cells, may)
    if whole is not None:
        return [[written(cell, value(new, cell)) for cell in load] for load in whole]
    out = [("pattern", number, 2) for number in old.patterns()]
    bare = old.copy()
    for cell in out:
        bare.cells[cell] = 0
    rest = packed(bare, new, differing(bare, new), may)
    if rest is None:
        raise NoWay("no order of downloads keeps the rules on the way")
    return [[written(cell, 0) for cell in out], *([written(cell, value(new, cell)) for cell in load] for load in rest)]


def between(old: Street, new: Street, round_: int, flash: bool) -> list[dict]:
    """Returns the downloads of all cabinets as a scenario's loads, from a round on."""
    cabinets = [it.scenario["cabinets"] for it in (old, new)]
    if len(cabinets[0]) != len(cabinets[1]):
        raise NoWay(f"the old plan has {len(cabinets[0])} cabinets and the new one {len(cabinets[1])}")
    found = []
    for number, (before, after) in enumerate(zip(*cabinets, strict=True), 1):
        try:
            for cells in downloads(tables_of(before), tables_of(after), flash):
                found.append({"round": round_, "cabinet": number, "cells": cells})
        except NoWay as why:
            raise NoWay(f"{new.names.called(number)}: {why}") from None
    return found
