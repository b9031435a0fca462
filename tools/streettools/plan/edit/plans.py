"""A plan that is edited: the street of a sheet with the tables of its cabinets."""

import copy
from dataclasses import dataclass, replace
from typing import Any

from ...shared.cells import cells_between, tables_of
from ...shared.tables import Tables
from ..names import Names
from ..reading import Street


@dataclass(frozen=True)
class Plan:
    """A street, and the tables of its cabinets. Neither is changed in place."""

    street: Street
    tables: tuple[Tables, ...]

    @property
    def names(self) -> Names:
        """The names of the street."""
        return self.street.names

    @property
    def numbers(self) -> range:
        """The numbers of the intersections."""
        return range(1, len(self.tables) + 1)

    def of(self, number: int) -> Tables:
        """Returns the tables of an intersection."""
        return self.tables[number - 1]

    def patterns(self) -> list[int]:
        """Returns the patterns that any intersection defines."""
        return sorted({pattern for it in self.tables for pattern in it.patterns()})

    def section(self, number: int) -> int:
        """Returns the section of an intersection."""
        return int(self.street.scenario["cabinets"][number - 1].get("section", 1))

    def group(self, number: int) -> list[int]:
        """Returns the intersections of the section of one, from the first to the last."""
        return [it for it in self.numbers if self.section(it) == self.section(number)]

    def cabinets(self) -> list[dict[str, Any]]:
        """Returns the cabinets of a scenario with these tables."""
        found = []
        for cabinet, tables in zip(self.street.scenario["cabinets"], self.tables, strict=True):
            rest = {name: it for name, it in cabinet.items() if name != "cells"}
            cells = cells_between(Tables(cabinet.get("base", "std8")), tables)
            found.append(rest | ({"cells": cells} if cells else {}))
        return found

    def with_tables(self, changed: dict[int, Tables]) -> "Plan":
        """Returns the plan with other tables of some intersections."""
        return replace(self, tables=tuple(changed.get(number, self.of(number)) for number in self.numbers))

    def with_travel(self, number: int, seconds: float) -> "Plan":
        """Returns the plan with another time of travel from an intersection to the next."""
        names = copy.copy(self.names)
        names.intersections = list(names.intersections)
        names.intersections[number - 1] = replace(names.intersections[number - 1], travel=seconds)
        return replace(self, street=replace(self.street, names=names))

    def written(self) -> Street:
        """Returns the street with the scenario of these tables."""
        return replace(self.street, scenario={**self.street.scenario, "cabinets": self.cabinets()})


def plan_of(street: Street) -> Plan:
    """Returns the plan of a street."""
    return Plan(street, tuple(tables_of(it) for it in street.scenario["cabinets"]))
