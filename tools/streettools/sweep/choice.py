"""Which measures a study asks for, and of what: `wait_mean`, `wait_mean cabinet 2 phase 4`, `services each phase`."""

import difflib
import re
from collections.abc import Iterable
from dataclasses import dataclass
from typing import Any

from ..shared.fault import Fault
from . import measures
from .counts import RunCounts
from .measures import Measure, Scope, Value

FORM = re.compile(r"(\w+)(?: cabinet (\d{1,3}))?(?: phase (\d{1,3}))?(?: each (cabinet|phase))?")


@dataclass(frozen=True)
class Column:
    """A measure of a cabinet and a phase, each where one is named, or of each cabinet or phase."""

    measure: Measure
    cabinet: int | None
    phase: int | None
    each: str | None = None

    def name(self) -> str:
        """Returns the name of the table's column."""
        cabinet = "" if self.cabinet is None else f"_c{self.cabinet}"
        return self.measure.name + cabinet + ("" if self.phase is None else f"_p{self.phase}")

    def value(self, counts: RunCounts) -> Value:
        """Returns the measure of a run; None where nothing is there to measure."""
        match self.measure.scope:
            case Scope.STREET:
                parts: list[Any] = [counts.street]
            case Scope.CABINET:
                parts = [it for cabinet, it in counts.cabinets.items() if self.cabinet in (None, cabinet)]
            case Scope.PHASE if self.cabinet is not None and self.phase is not None:
                parts = [counts.phases[place]] if (place := (self.cabinet, self.phase)) in counts.phases else []
            case Scope.PHASE:
                parts = [it for (cabinet, phase), it in counts.phases.items()
                         if self.cabinet in (None, cabinet) and self.phase in (None, phase)]  # fmt: skip
            case Scope.TRAFFIC:
                parts = [it for (cabinet, phase), it in counts.traffic.items()
                         if self.cabinet in (None, cabinet) and self.phase in (None, phase)]  # fmt: skip
        return self.measure.value(parts) if parts else None


def column_of(words: Any) -> Column:
    """Reads what a study asks for."""
    found = FORM.fullmatch(words) if isinstance(words, str) else None
    if not found:
        raise Fault(
            f"study: unknown measure {words!r}; e.g. wait_mean cabinet 2 phase 4; list: ./arterial sweep measures"
        )
    name, cabinet, phase, each = found.groups()
    measure = measures.ALL.get(name)
    if measure is None:
        near = next(iter(difflib.get_close_matches(name, measures.ALL, 1)), None)
        raise Fault(
            f"study: unknown measure {name!r}"
            + (f"; did you mean {near}?" if near else "; ./arterial sweep measures lists them")
        )
    is_phase, is_street = measure.scope in (Scope.PHASE, Scope.TRAFFIC), measure.scope is Scope.STREET
    if (phase or each == "phase") and not is_phase:
        raise Fault(f"study: measures: {name} is not one of a phase")
    if is_street and (cabinet or each):
        raise Fault(f"study: measures: {name} is one of the whole street")
    if (each == "cabinet" and cabinet) or (each == "phase" and phase):
        raise Fault(f"study: measures: {words!r} names one, and asks for each")
    return Column(measure, int(cabinet) if cabinet else None, int(phase) if phase else None, each)


def columns_of(given: Iterable[Any]) -> tuple[Column, ...]:
    """Reads all that a study asks for."""
    return tuple(column_of(it) for it in given)


def names(columns: Iterable[Column]) -> list[str]:
    """Returns the names of columns, those with `each` aside."""
    return [it.name() for it in columns if not it.each]


def needing(columns: Iterable[Column], scope: Scope) -> str | None:
    """Returns the first measure of a scope: of a street, or of traffic."""
    return next((it.measure.name for it in columns if it.measure.scope is scope), None)


def spread_out(columns: Iterable[Column], phases: dict[int, list[int]]) -> tuple[Column, ...]:
    """Returns the columns with each cabinet and each phase named, by the phases that each cabinet has."""
    found: list[Column] = []
    for it in columns:
        cabinets = [it.cabinet] if it.cabinet else list(phases)
        if it.each == "cabinet":
            found.extend(Column(it.measure, cabinet, it.phase) for cabinet in cabinets)
        elif it.each == "phase":
            found.extend(
                Column(it.measure, cabinet, phase) for cabinet in cabinets for phase in phases.get(cabinet, ())
            )
        else:
            found.append(it)
    return tuple(found)
