"""Names, ways and detectors of a street that were probably meant otherwise."""

from collections import Counter
from collections.abc import Iterator

from ..shared.tables import Tables
from .findings import Finding, Rank, warn
from .reading import Street
from .sentences import many


def of_names(street: Street) -> Iterator[Finding]:
    """Yields names that several intersections have."""
    counts = Counter(it.name for it in street.names.intersections if it.name)
    for name, count in counts.items():
        if count > 1:
            places = [number for number, it in enumerate(street.names.intersections, 1) if it.name == name]
            words = f"intersections {many(places)} have the same name: reports can't tell them apart"
            yield warn(name, f"{words}; give each its own")


def of_travel(street: Street) -> Iterator[Finding]:
    """Yields sections in which some ways to the next intersection are said, and others aren't."""
    cabinets, names = street.scenario["cabinets"], street.names
    for section in sorted({it.get("section", 1) for it in cabinets}):
        numbers = [number for number, it in enumerate(cabinets, 1) if it.get("section", 1) == section]
        without = [number for number in numbers[:-1] if names.intersection(number).travel is None]
        if without and len(without) < len(numbers) - 1:
            words = "`travel` is given at others and not here, so no bands are looked at: write the seconds to the next"
            yield warn(many(map(names.called, without)), f"{words} intersection", Rank.LOOK)


def of_detectors(street: Street, tables: list[Tables]) -> Iterator[Finding]:
    """Yields detectors of phases that aren't enabled."""
    for it in street.bank:
        if not isinstance(it, dict) or not isinstance(it.get("cabinet"), int) or it["cabinet"] > len(tables):
            continue
        number, phase = it["cabinet"], it.get("phase")
        if phase not in tables[number - 1].enabled():
            words = f"detector {it.get('detector')} calls phase {phase}, which isn't enabled"
            yield warn(street.names.called(number), f"{words}: it does nothing")


def all_of(street: Street, tables: list[Tables]) -> Iterator[Finding]:
    """Yields all that is doubtful in names, ways and detectors."""
    yield from of_names(street)
    yield from of_travel(street)
    yield from of_detectors(street, tables)
