"""What a study is refused for before anything runs, though it can be read: values that no cell takes, measures of
phases that aren't enabled, a beginning after the end."""

import itertools
from collections.abc import Iterator
from typing import Any

from ..shared import cells
from ..shared.fault import Fault
from .choice import Column
from .measures import Scope
from .study import Parameter, Study
from .targets import Put
from .values import Kind, Option

ENABLED = 21
"""The column of the phase table that has whether a phase is enabled."""
LOOKED_AT = 10_000
"""How many values of a parameter are looked at."""


def values_of(parameter: Parameter) -> Iterator[tuple[Put, Any]]:
    """Yields where a parameter puts which value."""
    values = parameter.values
    if values.kind is Kind.OPTION:
        for option in values.options:
            yield from option.puts
        return
    if values.kind is Kind.RANDOM:
        steps = values.stepped()
        found: Iterator[Any] = (steps.at(place) for place in (0, min(1, steps.count() - 1), steps.count() - 1))
    else:
        last = values.count() - 1
        found = (values.at(place) for place in {*range(min(last, LOOKED_AT)), last})
    for value, put in itertools.product(found, parameter.puts):
        yield put, value


def check_values(study: Study) -> None:
    """Refuses values that no cell takes."""
    for parameter in study.parameters:
        for put, value in values_of(parameter):
            if put.cell is not None:
                check_value(parameter.name, put.cell, put.value(value))


def check_value(name: str, cell: tuple[Any, ...], value: Any) -> None:
    """Refuses a value that a cell doesn't take."""
    kind = cells.kinds().get(cell)
    if kind is None:
        raise Fault(f"study: {name}: there is no cell {list(cell)} (docs/SCENARIO.md lists them)")
    if isinstance(kind, cells.Lists):
        if not isinstance(value, str):
            words = f"{value!r} is not a value of the cell {list(cell)}, which takes a list of phases"
            raise Fault(f"study: {name}: {words}")
        return
    if isinstance(value, bool) or not isinstance(value, int) or not kind.least <= value <= kind.most:
        takes = f"whole numbers from {kind.least} to {kind.most}"
        raise Fault(f"study: {name}: {value!r} is not a value of the cell {list(cell)}, which takes {takes}")


def check_beginning(study: Study, scenario: dict[str, Any]) -> None:
    """Refuses a beginning that leaves nothing of a scenario."""
    length = scenario["rounds"] * scenario["ticks"]
    if study.start >= length:
        ends = f"the run ends at {length / 10:g} s"
        raise Fault(f"study: from is {study.start / 10:g} s, and {ends}: nothing is measured")


def may_enable(study: Study) -> bool:
    """Tells whether some variant may have other phases than the base."""
    for parameter in study.parameters:
        values = parameter.values
        if values.kind is Kind.OPTION and any(it.scenario for it in values.options if isinstance(it, Option)):
            return True
        puts = [*parameter.puts, *(put for option in values.options for put, _ in option.puts)]
        if any(it.path or it.cell and (it.cell[0], it.cell[-1]) == ("phase", ENABLED) for it in puts):
            return True
    return False


def check_phases(study: Study, columns: tuple[Column, ...], phases: dict[int, list[int]]) -> None:
    """Refuses measures of cabinets that aren't there, and of phases that no cabinet of theirs has."""
    for it in columns:
        if it.cabinet is not None and it.cabinet not in phases:
            raise Fault(f"study: measures: {it.name()}: the scenario has no cabinet {it.cabinet}")
        if it.phase is None or it.measure.scope not in (Scope.PHASE, Scope.TRAFFIC) or may_enable(study):
            continue
        cabinets = list(phases) if it.cabinet is None else [it.cabinet]
        if not any(it.phase in phases[cabinet] for cabinet in cabinets):
            where = "any cabinet" if it.cabinet is None else f"cabinet {it.cabinet}"
            raise Fault(f"study: measures: {it.name()}: phase {it.phase} is not enabled in {where}")
