"""The edges between the splits of a pattern: which phases one moves, how far the rules let it move, and which rule ends
its way.

An edge is named by the phase before it. If the next phase of the ring is in another barrier group, the edge is a
barrier: it moves in both rings."""

from collections.abc import Callable, Iterator
from dataclasses import dataclass

from ...shared.cells import put, value
from ...shared.given import Wrong
from ...shared.tables import Tables
from ..fix import LONGEST
from ..layout import Layout
from ..names import Intersection
from ..pattern_rules import has_pair
from ..pattern_sentences import sentences
from ..rules import Broken

Shifts = dict[int, int]
"""By how much splits change, in seconds by phase, if an edge moves by a second to the right."""


def ring_of(laid: Layout, phase: int) -> tuple[int, ...]:
    """Returns the phases of the ring of a phase, in order."""
    found = next((order for order in laid.orders if phase in order), None)
    if found is None:
        raise Wrong(f"phase {phase} isn't in the sequence of pattern {laid.pattern}")
    return tuple(found)


def shifts(laid: Layout, phase: int) -> Shifts:
    """Returns what moves with the edge after a phase."""
    order = ring_of(laid, phase)
    at = order.index(phase)
    if at + 1 == len(order):
        raise Wrong(f"phase {phase} is the last of its ring: its end is that of the cycle")
    after = order[at + 1]
    if laid.side(phase) == laid.side(after):
        return {phase: 1, after: -1}
    found: Shifts = {}
    for ring in (1, 2):
        before, behind = laid.of_side(laid.side(phase), ring), laid.of_side(laid.side(after), ring)
        if not before or not behind:
            raise Wrong(f"ring {ring} has no phase next to this barrier")
        found |= {before[-1]: 1, behind[0]: -1}
    return found


def of_split(laid: Layout, phase: int) -> tuple[int, int]:
    """Returns the edge that gives a phase more time, and the direction in which it has to move: the edge after the
    phase, or the one before it if it is the last of its barrier group."""
    order = ring_of(laid, phase)
    at = order.index(phase)
    near = [it for it in order if it in laid.side(phase)]
    if phase != near[-1] or (len(near) == 1 and at + 1 < len(order)):
        return phase, 1
    if at == 0:
        raise Wrong(f"phase {phase} is the only one of its ring")
    return order[at - 1], -1


def moved(tables: Tables, laid: Layout, by: Shifts, seconds: int) -> Tables:
    """Returns tables with an edge moved."""
    found = tables.copy()
    for phase, sign in by.items():
        put(found, ("split", laid.split, phase, 3), value(tables, ("split", laid.split, phase, 3)) + sign * seconds)
    return found


def users(tables: Tables, split: int) -> list[int]:
    """Returns the defined patterns that use a split."""
    return [it for it in tables.patterns() if value(tables, ("pattern", it, 4)) == split]


def short(tables: Tables, pattern: int) -> Iterator[tuple[int, int, int]]:
    """Yields which of the rules 17 to 19 a pattern breaks: the rule, the pattern, and the phase if there is one."""
    laid = Layout(tables, pattern)
    rings = [sum(map(laid.time, order)) for order in laid.orders]
    equal = all(sum(map(laid.time, laid.of_side(it, 1))) == sum(map(laid.time, laid.of_side(it, 2)))
                for it in laid.sides)  # fmt: skip
    if rings != [laid.cycle, laid.cycle] or not equal:
        yield 17, pattern, 0
    yield from ((18, pattern, phase) for phase in laid.waited() if laid.room(phase) < 0)
    if has_pair(tables, pattern) and laid.window_room() < 0:
        yield 19, pattern, 0


def broken_by(tables: Tables, split: int) -> set[tuple[int, int, int]]:
    """Returns what the patterns of a split break of the rules 17 to 19."""
    return {it for pattern in users(tables, split) for it in short(tables, pattern)}


def furthest(fits: Callable[[int], bool], most: int) -> int:
    """Returns the greatest number from 0 to `most` that fits; 0 fits, and so does all below one that fits."""
    low, high = 0, most
    while low < high:
        middle = (low + high + 1) // 2
        low, high = (middle, high) if fits(middle) else (low, middle - 1)
    return low


@dataclass(frozen=True)
class Limits:
    """How far an edge may move to the left (not above 0) and to the right, in seconds; and the rule that ends each way,
    in words."""

    least: int
    most: int
    left: str
    right: str


def limits(tables: Tables, laid: Layout, by: Shifts, known: Intersection) -> Limits:
    """Returns how far an edge may move: until a rule would be broken that isn't broken yet."""
    before, ways = broken_by(tables, laid.split), []
    for sign in (-1, 1):
        room = [laid.time(it) // 10 if sign * way < 0 else LONGEST - laid.time(it) // 10 for it, way in by.items()]
        far = furthest(
            lambda it: broken_by(moved(tables, laid, by, sign * it), laid.split) <= before, max(0, min(room))
        )
        ways.append((sign * far, why(moved(tables, laid, by, sign * (far + 1)), laid, before, known)))
    (least, left), (most, right) = ways
    return Limits(least, most, left, right)


def why(tables: Tables, laid: Layout, before: set[tuple[int, int, int]], known: Intersection) -> str:
    """Returns which rule tables break that wasn't broken before, in words."""
    new = sorted(broken_by(tables, laid.split) - before)
    if not new:
        return "a split is 0 to 255 s"
    rule, pattern, phase = new[0]
    lines = sentences(tables, known, Broken(rule, pattern))
    line = next((it for it in lines if phase and known.phase_name(phase) in it), lines[0])
    return f"rule {rule}: {line}"
