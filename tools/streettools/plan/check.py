"""A check of a street: every broken rule in words, in the order of the program, and what else is doubtful."""

from collections.abc import Iterator
from dataclasses import replace

from ..shared.tables import Tables
from . import bands, conflicts, day_findings, rules, schedule_checks, warnings
from ..shared.cells import tables_of
from .findings import Finding, Level, in_order, note, warn
from .pattern_sentences import sentences
from .reading import Street
from .sources import Source

RINGS_FIRST = range(1, 10)


def broken_rules(street: Street, tables: list[Tables]) -> Iterator[Finding]:
    """Yields the broken rules of the opening tables, cabinet by cabinet; the first is the one that the program
    tells."""
    for number, it in enumerate(tables, 1):
        known, where = street.names.intersection(number), street.names.called(number)
        found = rules.broken(it)
        for broken in found:
            line = f"scenario: cabinet {number} breaks rule {broken.rule} at row {broken.row}"
            for words in sentences(it, known, broken):
                yield Finding(Level.ERROR, where, words, broken.rule, line)
        if it.patterns() and any(broken.rule in RINGS_FIRST for broken in found):
            yield Finding(Level.NOTE, where, "its patterns are looked at once rings and orders hold together")


def broken_loads(street: Street, tables: list[Tables]) -> Iterator[Finding]:
    """Yields the downloads that a cabinet will refuse. A refused one changes nothing."""
    in_force = [it.copy() for it in tables]
    counts: dict[int, int] = {}
    for load in street.scenario.get("loads", ()):
        number = load["cabinet"]
        counts[number] = counts.get(number, 0) + 1
        before = in_force[number - 1]
        new = before.copy()
        new.put(load["cells"])
        found = rules.broken(new, before)
        if not found:
            in_force[number - 1] = new
            continue
        head = f"download {counts[number]}, sent in round {load['round']}, will be refused: "
        for words in sentences(new, street.names.intersection(number), found[0], before):
            yield replace(warn(street.names.called(number), head + words), rule=found[0].rule)


def card_errors(street: Street | None) -> list[Finding]:
    """Returns where a street contradicts the conflict cards of its sheet."""
    if street is None or not any(it.conflicts for it in street.names.intersections):
        return []
    tables = [tables_of(it) for it in street.scenario["cabinets"]]
    return [it for it in conflicts.contradictions(tables, street.names) if it.level is Level.ERROR]


def findings(source: Source, program: str | None = None) -> list[Finding]:
    """Returns all that a check finds in a file: errors first, in the order of the program. What names and values don't
    allow to be looked at is left for later."""
    found, street = list(source.findings), source.street
    if street is not None and not (source.errors and source.text is None):
        tables = [tables_of(it) for it in street.scenario["cabinets"]]
        sound = [not rules.broken(it) for it in tables]
        found += [*broken_rules(street, tables), *conflicts.contradictions(tables, street.names), *street.doubts]
        if not source.errors:
            found += broken_loads(street, tables) if all(sound) else ()
            found += warnings.all_of(street, tables, sound)
            found += day_findings.of_days(street, tables)
            found += bands.findings(street, program) if all(sound) else ()
    elif street is not None:
        found += beside_values(source, street)
    return in_order(found)


def beside_values(source: Source, street: Street) -> Iterator[Finding]:
    """Yields what can be checked of a sheet that has values which aren't allowed: the times of its schedule, if they
    are not among these values; and that the rest isn't checked."""
    if not any(it.where.startswith(("schedule", "day_plan")) for it in source.errors):
        yield from schedule_checks.of_entries(street)
    yield note("", "rules and warnings are checked after these values are corrected")
