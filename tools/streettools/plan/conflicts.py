"""Phases that may be green together by the rings, against the usual numbering and against the conflict card of a sheet.

The usual numbering (NEMA): 1 to 4 in ring 1, 5 to 8 in ring 2, a barrier after 2 and 6. By it only a phase of 1 and 2
may be green with one of 5 and 6, and one of 3 and 4 with one of 7 and 8. The card (`conflicts = [[3, 8], ..]`) is the
author's own word.
"""

from collections.abc import Iterator
from itertools import combinations

from ..shared.cells import SEQUENCES, value
from ..shared.tables import ALL, Tables
from ..shared.given import Wrong
from .findings import Finding, Level, Rank, warn
from .layout import concurrent, sides_by_phase
from .names import Intersection, Names

USUAL = range(1, 9)
SIDES = (({1, 2}, {5, 6}), ({3, 4}, {7, 8}))
Pair = tuple[int, int]


def read(given: object) -> list[list[int]]:
    """Returns the card of a sheet: lists of phases of which no two may be green together."""
    if not isinstance(given, list):
        raise Wrong(f"{given!r} is not a list of pairs of phases, as [[3, 8], [4, 7]]")
    for it in given:
        if not isinstance(it, list) or len(it) < 2:
            raise Wrong(f"{it!r} is not a pair of phases: write [[3, 8], [4, 7]]")
        if any(isinstance(phase, bool) or phase not in ALL for phase in it) or len(set(it)) < len(it):
            raise Wrong(f"{it!r} has numbers that are not phases 1 to 16, or a phase twice")
    return given


def pairs(card: list[list[int]]) -> list[Pair]:
    """Returns the pairs of a card, each once, the lower phase first."""
    found = {(min(pair), max(pair)) for phases in card for pair in combinations(phases, 2)}
    return sorted(found)


def together(tables: Tables) -> list[Pair]:
    """Returns the pairs of enabled phases that may be green together."""
    enabled = tables.enabled()
    beside = {phase: concurrent(tables, phase) for phase in enabled}
    return [(one, other) for one, other in combinations(enabled, 2) if other in beside[one] or one in beside[other]]


def is_usual(pair: Pair) -> bool:
    """Tells whether the usual numbering lets two phases be green together; of phases above 8 it says nothing."""
    if not all(it in USUAL for it in pair):
        return True
    return any(pair[0] in one and pair[1] in other for one, other in SIDES)


def unusual(tables: Tables, known: Intersection, where: str) -> Iterator[Finding]:
    """Yields the phases that are green together though the usual numbering never has them so. A card without the pair
    makes it less grave."""
    card = pairs(known.conflicts)
    for pair in together(tables):
        if is_usual(pair) or pair in card or any(it in known.partners for it in pair):
            continue
        one, other = map(known.phase_name, pair)
        words = f"{one} and {other} may be green together by the rings; in the usual numbering they cross"
        if card:
            yield warn(where, f"{words} (the card `conflicts` doesn't have the pair)", Rank.LOOK)
        else:
            yield warn(where, (
                f"{words}: if two phases are swapped in `rings`, put them back; if your numbering is another, write "
                "`conflicts` with the pairs that cross"
            ), Rank.DANGEROUS)  # fmt: skip


def place(tables: Tables, number: int, pair: Pair) -> str:
    """Returns where a sequence has two phases between the same barriers, with both lines of the rings."""
    sides = sides_by_phase(tables)
    side = sides[pair[0]] | sides[pair[1]]
    rings = [[it for it in value(tables, ("sequence", number, ring)) if it in side] for ring in (1, 2)]
    return " with ".join(" ".join(map(str, ring)) or "-" for ring in rings)


def where_together(tables: Tables, pair: Pair) -> str:
    """Returns between which barriers two phases may be green together, by the sequences that have both."""
    places: dict[str, list[int]] = {}
    for number in SEQUENCES:
        rings = [value(tables, ("sequence", number, ring)) for ring in (1, 2)]
        if all(any(phase in ring for ring in rings) for phase in pair):
            places.setdefault(place(tables, number, pair), []).append(number)
    told = [f"{rings} in sequence {' and '.join(map(str, numbers))}" for rings, numbers in places.items()]
    return f", between the same barriers ({'; '.join(told)})" if told else ""


def contradicted(tables: Tables, known: Intersection, where: str) -> Iterator[Finding]:
    """Yields the pairs of the card that rings or lists of concurrent phases let be green together, as errors; and
    phases of the card that aren't enabled."""
    beside = together(tables)
    for pair in pairs(known.conflicts):
        one, other = map(known.phase_name, pair)
        if pair in beside:
            yield Finding(Level.ERROR, where, (
                f"the card `conflicts` has {list(pair)}, but {one} and {other} may be green together"
                f"{where_together(tables, pair)}: draw a barrier between them in `rings`, or both in one ring"
            ))  # fmt: skip
    off = sorted({phase for pair in pairs(known.conflicts) for phase in pair} - set(tables.enabled()))
    if off:
        yield warn(where, (
            f"the card `conflicts` names {', '.join(map(str, off))}, not enabled here: check the numbers"
        ))  # fmt: skip


def contradictions(tables: list[Tables], names: Names) -> list[Finding]:
    """Returns where the intersections of a street contradict their cards."""
    return [
        it
        for number, each in enumerate(tables, 1)
        for it in contradicted(each, names.intersection(number), names.called(number))
    ]
