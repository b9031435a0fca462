"""Left undisturbed, a cabinet reaches a local zero within a bound, and its offset within the computed number of cycles
after that, and stays there. If the clock drifts, it reaches it within twice that number, and to within one tick (if the
clock gains, only with the shortway correction).

docs/DEFINITIONS.md, "What coordination promises, left undisturbed".
"""

from collections.abc import Iterator
from dataclasses import dataclass

from model.counter import ADD_ONLY, DWELL, SHORTWAY, Correction, correction
from model.plan import is_defined, pattern
from model.promises.disturbances import Tick, quiet_spans
from model.promises.told import Seen, Street
from model.tables import Tables, enabled, rows
from model.words import Kind


def pickup_bound(versions: list[Tables]) -> int:
    """Returns within how many ticks a pattern that is sought is picked up: each time is the longest over some versions,
    column by column."""
    used = {p for tables in versions for p in enabled(tables)}

    def greatest(p: int, column: str) -> int:
        return max(getattr(rows(tables)[p], column) for tables in versions)

    clear = max(greatest(p, "yellow") + greatest(p, "red_clear") for p in used)
    service = max(max(greatest(p, "least_green"), greatest(p, "walk") + greatest(p, "ped_clear")) for p in used)
    return 2 * clear + service + max(greatest(p, "red_revert") for p in used) + 4


def longest_cycle(may: Correction, cycle: int) -> int:
    """Returns the cycle with all the correction that one cycle may have."""
    return cycle + {DWELL: may.dwell, ADD_ONLY: may.add, SHORTWAY: max(may.add, may.skip)}[may.mode]


def needed(may: Correction, cycle: int, target: int) -> int:
    """Returns in how many cycles the counter comes onto its target, from the target at a local zero."""
    ahead = (cycle - target) % cycle
    if may.mode == DWELL:
        return -(-ahead // may.dwell)
    adding = -(-ahead // may.add)
    return adding if may.mode == ADD_ONLY else min(adding, -(-target // may.skip))


def zeros_in(street: Street, number: int, first: int, last: int) -> list[Seen]:
    """Returns the frames of a pattern at counter 0 within some ticks: local zeros, and what changes at one."""
    return [
        it
        for it in street.seen
        if first <= it.tick <= last and it.mode.kind is Kind.COORD and it.mode.number == number and it.counter == 0
    ]


def is_near(cycle: int, seen: Seen, is_drifting: bool) -> bool:
    """Tells whether counter and target are equal, or with a clock that drifts at most one tick apart."""
    apart = (seen.target - seen.counter) % cycle
    return apart in (0, 1, cycle - 1) if is_drifting else apart == 0


@dataclass(frozen=True)
class Settled:
    """Ticks, from the first to the last, at each of which counter and target are equal by this promise, to within a
    tick if the clock drifts."""

    first: int
    last: int
    cycle: int
    is_drifting: bool


def zero_bound(street: Street, disturbed: Tick) -> int:
    """Returns the number of ticks after a disturbance within which a local zero follows."""
    tables, number = street.tables(disturbed.shown), disturbed.command
    longest = longest_cycle(correction(tables), pattern(tables, number).cycle)
    return max(pickup_bound(street.versions[: disturbed.shown.version + 1]), longest)


def settled_after(street: Street, disturbed: Tick, last: int) -> Settled | None:
    """Returns the ticks after a disturbance, up to the last quiet one, to which this promise applies: those after the
    bound of the offset. Returns None if there are none."""
    tables, number, drift = street.tables(disturbed.shown), disturbed.command, street.setup.drift
    may = correction(tables)
    if not is_defined(tables, number) or (drift.gain and may.mode != SHORTWAY):
        return None
    bound, cycle = zero_bound(street, disturbed), pattern(tables, number).cycle
    if last - disturbed.number < bound:
        return None
    found = zeros_in(street, number, disturbed.number + 1, disturbed.number + bound)
    if not found:
        return None
    is_drifting = bool(drift.gain or drift.lose)
    cycles = (1 + is_drifting) * needed(may, cycle, found[0].target)
    first = disturbed.number + bound + cycles * longest_cycle(may, cycle)
    return Settled(first, last, cycle, is_drifting) if first <= last else None


def settled(street: Street) -> Iterator[Settled]:
    """Yields the ticks of a street to which this promise applies, in order."""
    for disturbed, last in quiet_spans(street):
        if found := settled_after(street, disturbed, last):
            yield found


def after(street: Street, disturbed: Tick, last: int) -> Iterator[str]:
    """Yields what is wrong in the ticks after a disturbance, up to the last quiet one."""
    number = disturbed.command
    if not is_defined(street.tables(disturbed.shown), number):
        return
    bound = zero_bound(street, disturbed)
    if last - disturbed.number < bound:
        return
    if not zeros_in(street, number, disturbed.number + 1, disturbed.number + bound):
        yield f"tick {disturbed.number}: no local zero of pattern {number} within {bound} ticks"
        return
    due = settled_after(street, disturbed, last)
    if due is None:
        return
    for seen in street.seen:
        if due.first <= seen.tick <= last and not is_near(due.cycle, seen, due.is_drifting):
            told = f"counter {seen.counter}, target {seen.target}"
            yield f"tick {seen.tick}: {told}, met by tick {due.first} by the promise"


def offset(street: Street) -> Iterator[str]:
    """Yields the violations of this promise in a street."""
    for disturbed, last in quiet_spans(street):
        yield from after(street, disturbed, last)
