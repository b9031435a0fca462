"""Splits that only just fit: one line for each pattern in which some do, and one for all in which every split does."""

from collections.abc import Iterator

from ..shared.tables import Tables
from .findings import Finding, Rank, warn
from .layout import Layout
from .names import Names
from .pattern_rules import has_pair
from .sentences import many, seconds

TIGHT = 10
"""With fewer ticks to spare than this, a split only just fits."""


def rooms(laid: Layout, partners: list[int]) -> dict[int, int]:
    """Returns the ticks to spare in each split that must serve its phase."""
    return {phase: laid.room(phase) for phase in laid.waited() if phase not in partners}


def of_pattern(tables: Tables, pattern: int, number: int, names: Names) -> Iterator[Finding]:
    """Yields in one line what only just fits in a pattern; patterns of which all just fits are reported elsewhere."""
    where, known, laid = names.called(number), names.intersection(number), Layout(tables, pattern)
    tight = {phase: room for phase, room in rooms(laid, known.partners).items() if 0 <= room < TIGHT}
    if tight:
        given = many(f"{known.phase_name(phase)} {laid.time(phase) // 10} s" for phase in tight)
        fits = f"which only just fit{'s' * (len(tight) == 1)}: {seconds(min(tight.values()))} to spare"
        yield warn(where, f"pattern {pattern} gives {given}, {fits}", Rank.LOOK)


def of_pair(tables: Tables, pattern: int, number: int, names: Names) -> Iterator[Finding]:
    """Yields a green of the coordinated phases that only just fits."""
    laid = Layout(tables, pattern)
    if has_pair(tables, pattern) and 0 <= laid.window_room() < TIGHT:
        yield warn(names.called(number), (
            f"pattern {pattern} gives its coordinated phases {many(laid.coordinated)} a green of "
            f"{seconds(laid.window)} together, which only just fits: {seconds(laid.window_room())} to spare"
        ), Rank.LOOK)  # fmt: skip


def all_fit_just(tables: Tables, pattern: int, partners: list[int]) -> bool:
    """Tells whether every split of a pattern only just fits, of two or more."""
    found = rooms(Layout(tables, pattern), partners)
    return len(found) > 1 and all(0 <= it < TIGHT for it in found.values())


def all_of(tables: list[Tables], sound: list[bool], names: Names) -> Iterator[Finding]:
    """Yields what only just fits, of tables that keep the rules."""
    whole: dict[str, list[int]] = {}
    for number, it in enumerate(tables, 1):
        for pattern in it.patterns() if sound[number - 1] else ():
            if all_fit_just(it, pattern, names.intersection(number).partners):
                whole.setdefault(names.called(number), []).append(pattern)
            else:
                yield from of_pattern(it, pattern, number, names)
            yield from of_pair(it, pattern, number, names)
    if whole:
        lines = "; ".join(f"{where}, pattern {many(patterns)}" for where, patterns in whole.items())
        yield warn("", f"every split but the coordinated only just fits (below 1 s to spare): {lines}", Rank.LOOK)
