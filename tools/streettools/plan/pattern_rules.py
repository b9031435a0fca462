"""The rules of tables (docs/SCENARIO.md) that ask of defined patterns: each yields the patterns that break it."""

from collections.abc import Iterator

from ..shared.tables import Tables
from ..shared.cells import RINGS, SEQUENCES, value
from .layout import Layout


def has_sequence(tables: Tables, pattern: int) -> bool:
    """Tells whether the sequence of a pattern isn't empty in both rings."""
    number = value(tables, ("pattern", pattern, 5))
    return number in SEQUENCES and any(value(tables, ("sequence", number, ring)) for ring in RINGS)


def rule_14(tables: Tables) -> Iterator[int]:
    """The split of a pattern is 1 to 32, and its sequence has phases."""
    return (
        it
        for it in tables.patterns()
        if not 1 <= value(tables, ("pattern", it, 4)) <= 32 or not has_sequence(tables, it)
    )


def rule_15(tables: Tables) -> Iterator[int]:
    """The offset is less than the cycle."""
    return (it for it in tables.patterns() if value(tables, ("pattern", it, 3)) >= value(tables, ("pattern", it, 2)))


def has_pair(tables: Tables, pattern: int) -> bool:
    """Tells whether a split coordinates one phase of each ring, both concurrent and not omitted."""
    laid = Layout(tables, pattern)
    rings = [value(tables, ("phase", it, 22)) for it in laid.coordinated]
    if sorted(rings) != [1, 2] or any(laid.is_omitted(it) for it in laid.coordinated):
        return False
    one, other = laid.coordinated
    return other in value(tables, ("phase", one, 23))


def rule_16(tables: Tables) -> Iterator[int]:
    """The split has one coordinated phase in each ring, concurrent, neither of them omitted."""
    return (it for it in split_patterns(tables) if not has_pair(tables, it))


def split_patterns(tables: Tables) -> list[int]:
    """Returns the defined patterns that keep rule 14."""
    wrong = set(rule_14(tables))
    return [it for it in tables.patterns() if it not in wrong]


def rule_17(tables: Tables) -> Iterator[int]:
    """The times of each ring add up to the cycle, and on each side the sums of both rings are equal."""
    for number in split_patterns(tables):
        laid = Layout(tables, number)
        rings = [sum(map(laid.time, order)) for order in laid.orders]
        equal = all(
            sum(map(laid.time, laid.of_side(it, 1))) == sum(map(laid.time, laid.of_side(it, 2))) for it in laid.sides
        )
        if rings != [laid.cycle, laid.cycle] or not equal:
            yield number


def rule_18(tables: Tables) -> Iterator[int]:
    """A phase that isn't coordinated or omitted has time for its minimum service, with room for the clearances."""
    for number in split_patterns(tables):
        laid = Layout(tables, number)
        if any(laid.room(phase) < 0 for phase in laid.waited()):
            yield number


def rule_19(tables: Tables) -> Iterator[int]:
    """The coordinated phases stay green long enough together."""
    for number in split_patterns(tables):
        if has_pair(tables, number) and Layout(tables, number).window_room() < 0:
            yield number
