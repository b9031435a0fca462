"""Plans that keep the rules of tables. A plan that breaks one is repaired, or left out: it is never run.

An offset at or after the end of the cycle is taken modulo the cycle, which is the same moment. Splits that don't fit
get the smallest change with which they do (plan/fix.py)."""

import json
from dataclasses import dataclass
from typing import Any

from ...plan import fix, rules
from ...plan.names import Names
from ...shared.cells import cells_between, put, tables_of, unset, value
from ...shared.fault import Fault
from ...shared.tables import Tables
from ..building import SHARED, Builder
from ..prepared import hash_of
from ..variants import Cells, Variant

OFFSET_RULE = 15


@dataclass(frozen=True)
class Kept:
    """A plan that keeps the rules: the cells that repair it, and a text that is equal for equal plans."""

    cells: Cells
    identity: str


@dataclass(frozen=True)
class Mended:
    """A cabinet that keeps the rules: the cells that repair it, and its tables as a text."""

    cells: tuple[tuple[Any, ...], ...]
    tables: str


class Unfit(Exception):
    """A plan can't be repaired; the words say what it breaks."""


class Rules:
    """Repairs plans; each cabinet is looked at once."""

    def __init__(self, builder: Builder, names: Names) -> None:
        self.builder, self.names = builder, names
        self.seen: dict[tuple[int, str], Mended | str] = {}

    def kept(self, variant: Variant) -> Kept:
        """Returns a plan with what repairs it; raises `Unfit` if nothing does."""
        try:
            document = self.builder.document(variant)
            cabinets = document["scenario"]["cabinets"]
            mended = [self.mended(number, it) for number, it in enumerate(cabinets, 1)]
        except (Fault, TypeError, LookupError, AttributeError, ValueError) as fault:
            raise Unfit(str(fault)) from None
        cells = tuple((number, cell) for number, it in enumerate(mended, 1) for cell in it.cells)
        return Kept(cells, self.identity(document, [it.tables for it in mended]))

    def identity(self, document: dict[str, Any], tables: list[str]) -> str:
        """Returns a text that is equal for plans that are run alike."""
        kept = {name for name in SHARED if name not in self.builder.deep}
        rest = {name: it for name, it in document["scenario"].items() if name not in kept}
        rest["cabinets"] = [
            {name: it for name, it in cabinet.items() if name not in ("base", "cells")} for cabinet in rest["cabinets"]
        ]
        return hash_of([document | {"scenario": rest}, tables])

    def mended(self, number: int, cabinet: dict[str, Any]) -> Mended:
        """Returns what repairs a cabinet; raises `Unfit` if nothing does."""
        key = number, json.dumps([cabinet.get("base"), cabinet.get("cells")])
        if key not in self.seen:
            try:
                self.seen[key] = self.repaired(number, cabinet)
            except Unfit as why:
                self.seen[key] = str(why)
        found = self.seen[key]
        if isinstance(found, str):
            raise Unfit(found)
        return found

    def repaired(self, number: int, cabinet: dict[str, Any]) -> Mended:
        """Repairs a cabinet that wasn't seen before."""
        tables = tables_of(cabinet)
        before = tables.copy()
        if broken := rules.broken(tables):
            for it in broken:
                if it.rule == OFFSET_RULE and value(tables, ("pattern", it.row, 2)):
                    wrap(tables, it.row)
            list(fix.mend(tables, self.names.intersection(number), []))
            broken = rules.broken(tables)
        if broken:
            raise Unfit(f"cabinet {number} breaks rule {broken[0].rule} at row {broken[0].row}")
        cells = tuple(tuple(it) for it in cells_between(before, tables))
        return Mended(cells, repr(sorted((cell, it) for cell, it in tables.cells.items() if it != unset(cell))))


def wrap(tables: Tables, pattern: int) -> None:
    """Takes an offset modulo its cycle."""
    offset, cycle = (value(tables, ("pattern", pattern, column)) for column in (3, 2))
    put(tables, ("pattern", pattern, 3), offset % cycle)
