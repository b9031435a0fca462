"""Another cycle of a pattern: its splits keep their shares as far as the rules let them."""

import numpy as np

from ...shared.cells import put, value
from ...shared.given import Wrong
from ...shared.tables import Tables
from .. import fix
from ..layout import Layout
from ..names import Intersection
from ..pattern_rules import has_pair
from . import edges


TRIED = (64, 96, 128, 192, fix.LONGEST)
"""Up to which cycles splits are looked for: the work grows with the third power."""


def least(tables: Tables, pattern: int, known: Intersection) -> int:
    """Returns the shortest cycle in seconds in which some splits of a pattern keep the rules."""
    laid = Layout(tables, pattern)
    asked = fix.Asked(known.partners, {})
    if has_pair(tables, pattern):
        for most in TRIED:
            enough = np.flatnonzero(fix.laid_out(laid, asked, most)[1][-1] < fix.NEVER)
            if enough.size:
                return int(enough[0])
    raise Wrong(f"pattern {pattern}: no cycle up to {fix.LONGEST} s is long enough for the minimum services")


class TooShort(Exception):
    """No splits keep the rules in a cycle."""


def shares(times: list[int], total: int) -> list[int]:
    """Returns whole numbers with the sum `total` and about the shares of `times`."""
    whole = sum(times)
    exact = [total * it / whole if whole else total / len(times) for it in times]
    found = [int(it) for it in exact]
    behind = sorted(range(len(times)), key=lambda at: found[at] - exact[at])
    for at in behind[: total - sum(found)]:
        found[at] += 1
    return found


def scaled(tables: Tables, pattern: int, cycle: int, known: Intersection) -> Tables:
    """Returns tables in which a pattern has another cycle, with splits in the same shares. If these break a rule, the
    smallest change that keeps the rules is made to them; TooShort is raised if no splits keep them. The offset is taken
    modulo the cycle."""
    laid = Layout(tables, pattern)
    others = [it for it in edges.users(tables, laid.split) if it != pattern]
    if others:
        raise Wrong(f"pattern {pattern} shares split {laid.split} with pattern {others[0]}: give it a split of its own "
                    "in the sheet first")  # fmt: skip
    found = tables.copy()
    put(found, ("pattern", pattern, 2), cycle)
    put(found, ("pattern", pattern, 3), value(tables, ("pattern", pattern, 3)) % cycle)
    lengths = shares([sum(laid.time(it) for it in laid.of_side(side, 1)) for side in laid.sides], cycle)
    for side, length in zip(laid.sides, lengths, strict=True):
        for ring in (1, 2):
            phases = laid.of_side(side, ring)
            for phase, time in zip(phases, shares([laid.time(it) for it in phases], length), strict=True):
                put(found, ("split", laid.split, phase, 3), min(255, time))
    if any(edges.short(found, pattern)):
        try:
            fix.apply(found, fix.least_change(found, pattern, known))
        except fix.NoChange:
            raise TooShort from None
    return found
