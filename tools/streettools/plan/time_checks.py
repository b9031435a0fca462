"""Times of phases that are short for the street, or that were written in another unit."""

from collections.abc import Iterator
from dataclasses import dataclass

from ..shared.cells import value
from ..shared.tables import Tables
from . import street_facts
from .fields import RECALLS
from .findings import Finding, Rank, note, warn
from .names import Intersection, Names, Phase
from .reading import Street
from .sentences import many, seconds

RED_LIKE_SECONDS, PASSAGE_LIKE_SECONDS = range(1, 6), range(1, 10)
MOST_RED, MOST_PASSAGE = 60, 90
"""A red clearance, or a passage time, of more ticks than this is probably one in tenths: the MUTCD has 6 s as the
longest red clearance."""

PEDESTRIAN = next(bit for bit, word in RECALLS.items() if word == "pedestrian")
FASTEST = {"us": 65, "metric": 110}
"""The greatest speed that is expected at a signal, in mph and km/h."""


@dataclass(frozen=True)
class Row:
    """A phase: its cells by their columns, what is known of its approach, its name, and the units."""

    cells: dict[int, int]
    about: Phase
    name: str
    where: str
    metric: bool

    def warn(self, words: str, rank: Rank = Rank.MISTAKE, is_cause: bool = False) -> Finding:
        """Returns a warning of this phase."""
        return warn(self.where, f"{self.name} {words}", rank, is_cause)

    @property
    def approach(self) -> str:
        """The speed and the grade in words."""
        grade = f" at a grade of {self.about.grade:g} %" if self.about.grade else ""
        return f"{self.about.speed:g} {'km/h' if self.metric else 'mph'}{grade}"

    def length(self, measured: float | None) -> str:
        """Returns a length in words."""
        return f"{measured or 0:g} {'m' if self.metric else 'ft'}"


def row_of(tables: Tables, phase: int, number: int, names: Names) -> Row:
    """Returns a phase of an intersection."""
    known = names.intersection(number)
    cells = {column: int(value(tables, ("phase", phase, column))) for column in (*range(2, 11), 21)}
    return Row(cells, known.phase(phase), known.phase_name(phase), names.called(number), names.units == "metric")


def in_tenths(row: Row) -> Iterator[Finding]:
    """Yields red clearances and passage times that are written in tenths in place of seconds, or the other way."""
    for column, name, few, most in (
        (9, "a red clearance", RED_LIKE_SECONDS, MOST_RED), (5, "a passage time", PASSAGE_LIKE_SECONDS, MOST_PASSAGE),
    ):  # fmt: skip
        ticks = row.cells[column]
        if ticks in few:
            yield row.warn(f"has {name} of {seconds(ticks)}; are {ticks} s meant? A cell has tenths of a second")
        elif ticks > most:
            tenths = f": are tenths meant? Write {ticks / 100:g}" if ticks % 10 == 0 else ""
            yield row.warn(f"has {name} of {seconds(ticks)}, longer than {seconds(most)}{tenths}", is_cause=True)


def of_vehicles(row: Row) -> Iterator[Finding]:
    """Yields yellow changes and red clearances that are shorter than speed, grade and width ask."""
    due = street_facts.yellow_due(row.about, row.metric)
    if due is not None and row.cells[8] < round(10 * due):
        words = f"has a yellow change of {seconds(row.cells[8])}; {row.approach} ask {due:g} s"
        yield row.warn(words, Rank.DANGEROUS)
    due = street_facts.red_due(row.about, row.metric)
    if due is not None and row.cells[9] < round(10 * due):
        vehicle = street_facts.VEHICLE / (street_facts.FEET_IN_METRE if row.metric else 1)
        yield row.warn((
            f"has a red clearance of {seconds(row.cells[9])}; {row.length(row.about.width)} and a vehicle of "
            f"{row.length(round(vehicle, 1))} at {row.about.speed:g} {'km/h' if row.metric else 'mph'} take {due:g} s"
        ), Rank.DANGEROUS)  # fmt: skip
    fastest = FASTEST["metric" if row.metric else "us"]
    if row.about.speed and row.about.speed > fastest:
        unit, other = ("km/h", "us") if row.metric else ("mph", "metric")
        yield row.warn(f'has a speed of {row.about.speed:g} {unit}; if that is in other units, write units = "{other}"')


def of_people(row: Row) -> Iterator[Finding]:
    """Yields walks and pedestrian clearances that are short, missing or never asked for."""
    walk, clear, longest = row.cells[2], row.cells[3], row.cells[6]
    due = street_facts.clearance_due(row.about, row.metric)
    if due is not None and walk and clear < due:
        yield row.warn((
            f"has a pedestrian clearance of {clear} s; {row.length(row.about.crossing)} at {street_facts.WALKING} ft/s "
            f"take {due} s (the {seconds(row.cells[8] + row.cells[9])} of yellow and red after it may count, if your "
            "practice allows)"
        ), Rank.DANGEROUS)  # fmt: skip
    if due is not None and not walk and row.about.kind == "pedestrian":
        yield row.warn("is a crossing and has no walk", Rank.DANGEROUS)
    if row.cells[21] & PEDESTRIAN and not walk:
        words = 'has recall "pedestrian" and a walk of 0 s, so the recall does nothing'
        yield row.warn(f'{words}: give it a walk, or recall "minimum"')
    if walk > longest and row.about.kind == "vehicle":
        yield row.warn(f"has a walk of {walk} s, longer than its maximum green of {longest} s: are they swapped?")


def of_greens(row: Row) -> Iterator[Finding]:
    """Yields maximum greens below the minimum green."""
    least, longest = row.cells[4], row.cells[6]
    if longest < least and row.about.kind == "vehicle":
        yield row.warn(f"has a maximum green of {longest} s, less than its minimum green of {least} s")


def of_cabinet(tables: Tables, number: int, names: Names) -> Iterator[Finding]:
    """Yields the doubts about the times of the phases of an intersection."""
    for phase in tables.enabled():
        if phase not in names.intersection(number).partners:
            row = row_of(tables, phase, number, names)
            for check in (in_tenths, of_vehicles, of_people, of_greens):
                yield from check(row)


def without(tables: Tables, known: Intersection, name: str) -> str:
    """Returns the phases for vehicles for which a sheet says no speed, or no width; nothing if there are none."""
    served = [it for it in tables.enabled() if it not in known.partners and known.phase(it).kind == "vehicle"]
    found = [it for it in served if not getattr(known.phase(it), name)]
    if found and found == served:
        return "every phase"
    return f"phase{'s' * (len(found) > 1)} {many(found)}" if found else ""


def unchecked(street: Street, tables: list[Tables]) -> Iterator[Finding]:
    """Yields one line that says which phases weren't checked, since their speed or width isn't given."""
    parts = []
    for name, what in (("speed", "yellow and red clearance"), ("width", "red clearance")):
        found: dict[str, list[str]] = {}
        for number, it in enumerate(tables, 1):
            phases = without(it, street.names.intersection(number), name)
            if phases:
                found.setdefault(phases, []).append(street.names.called(number))
        lines = [phases if len(at) == len(tables) else f"{phases} at {many(at)}" for phases, at in found.items()]
        if lines:
            parts.append(f"{what} of {'; '.join(lines)} (no `{name}`)")
    if parts:
        yield note("", "not checked against the street: " + ". Nor ".join(parts))
