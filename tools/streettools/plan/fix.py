"""The least change of a pattern's splits with which it keeps rules 17, 18 and 19: found exactly, for whole seconds. If
the cycle is long enough, no phase is then skipped after a lagging phase that is forced off (see `lagging`).

Each side of the barrier is laid out by itself for every length that it may have; then the lengths are chosen that make
the cycle. Costs are seconds of change, summed over phases. On the coordinated side the later start of the coordinated
phases, local zero, is tried at every second."""

from collections.abc import Iterator
from dataclasses import dataclass
from functools import cached_property
from typing import NoReturn

import numpy as np

from ..shared.tables import Tables
from . import lagging, rules
from ..shared.cells import put, value
from .layout import Layout, least_service
from .names import Intersection
from .pattern_rules import has_pair
from .pattern_sentences import ceiling
from .sentences import many

LONGEST = 255
"""A split, and a cycle, is 0 to 255 s."""

NEVER = np.int64(10**6)
FIRST, SPLIT_RULES = (*range(1, 10), 14, 16), (17, 18, 19)
"""The rules on which splits depend, and those that ask of splits."""


@dataclass(frozen=True)
class Change:
    """The splits of a pattern before and after: seconds by phase, of those that change."""

    pattern: int
    split: int
    before: dict[int, int]
    after: dict[int, int]
    roomy: tuple[int, ...] = ()
    """The phases that have room after a lagging phase, which the rules don't ask for."""

    def words(self, known: Intersection) -> str:
        """Returns the change in words."""
        parts = [f"{known.phase_name(it)} from {self.before[it]} to {self.after[it]} s" for it in self.after]
        total = sum(abs(self.after[it] - self.before[it]) for it in self.after if it not in known.partners)
        return (
            f"pattern {self.pattern} (split {self.split}) keeps the rules with "
            + ", ".join(parts)
            + f": {total} s of change, the smallest that is enough"
            + (f" and leaves phases {many(self.roomy)} room after a lagging phase" if self.roomy else "")
        )


class NoChange(Exception):
    """No splits keep the rules, in words."""


def added(costs: np.ndarray, of_time: np.ndarray) -> np.ndarray:
    """Returns the least cost for each sum of a length and a time, by the costs of both."""
    return np.array([(costs[: total + 1] + of_time[total::-1]).min() for total in range(len(costs))])


def chosen(costs: np.ndarray, of_time: np.ndarray, total: int) -> int:
    """Returns the time with which a sum has its least cost."""
    return int(np.argmin(costs[total::-1] + of_time[: total + 1]))


@dataclass(frozen=True)
class Asked:
    """What a change must keep in mind: the placeholder phases, which cost nothing, and the ticks that some phases need
    beyond their minimum service."""

    partners: list[int]
    rooms: dict[int, int]


class Ring:
    """The phases of a ring on a side, in order: what each time of each costs. No time up to `most` is left out."""

    def __init__(self, laid: Layout, phases: list[int], asked: Asked, most: int):
        self.laid, self.phases, self.partners, self.rooms = laid, phases, asked.partners, asked.rooms
        self.seconds = np.arange(most + 1)
        self.clearance = laid.side_clearance(phases[0])
        self.at = next((at for at, it in enumerate(phases) if it in laid.coordinated), None)

    def cost(self, phase: int, least: int) -> np.ndarray:
        """Returns the cost of each time of a phase."""
        weight = 0 if phase in self.partners else 1
        costs = weight * np.abs(self.seconds - self.laid.time(phase) // 10).astype(np.int64)
        costs[:least] = NEVER
        return costs

    def service(self, phase: int) -> int:
        """Returns the ticks of green that a phase must have room for."""
        return least_service(self.laid.tables, phase) + self.rooms.get(phase, 0)

    def waited(self, phase: int) -> np.ndarray:
        """Returns the cost of each time of a phase that is neither coordinated nor omitted."""
        if self.laid.is_omitted(phase):
            return self.cost(phase, 0)
        return self.cost(phase, ceiling(self.service(phase) + self.laid.tables.clearance(phase)))

    def behind(self, phases: list[int]) -> list[np.ndarray]:
        """Returns, for each of some last phases of the side and for none, the least cost of it and of those after it,
        by their length."""
        found = [np.where(self.seconds == 0, 0, NEVER)]
        for phase in reversed(phases):
            costs = added(found[0], self.waited(phase))
            if not self.laid.is_omitted(phase):
                costs[: ceiling(self.service(phase) + self.clearance)] = NEVER
            found.insert(0, costs)
        return found

    @cached_property
    def tail(self) -> list[np.ndarray]:
        """The costs of the phases after the coordinated one, or of all."""
        return self.behind(self.phases if self.at is None else self.phases[self.at + 1 :])

    @cached_property
    def front(self) -> list[np.ndarray]:
        """The costs of the phases before the coordinated one by their length: of none, of the first, and so on."""
        found = [np.where(self.seconds == 0, 0, NEVER)]
        for phase in self.phases[: self.at]:
            found.append(added(found[-1], self.waited(phase)))
        return found

    @cached_property
    def pair_cost(self) -> np.ndarray:
        """What each time of the coordinated phase costs."""
        return self.cost(self.coordinated(), 0)

    def coordinated(self) -> int:
        """Returns the coordinated phase."""
        assert self.at is not None
        return self.phases[self.at]

    def need(self, hold: int) -> int:
        """Returns how many seconds from local zero to the end of the coordinated phase there must be."""
        return ceiling(hold + self.laid.tables.clearance(self.coordinated()))

    def by_end(self, zero: int, hold: int) -> np.ndarray:
        """Returns the least cost of all up to the coordinated phase by where it ends, with its start at local zero or
        before."""
        costs = np.full(len(self.seconds), NEVER)
        for end in range(zero + self.need(hold), len(costs)):
            costs[end] = (self.front[-1][: zero + 1] + self.pair_cost[end - zero : end + 1][::-1]).min()
        return costs

    def times_behind(self, phases: list[int], tail: list[np.ndarray], total: int) -> dict[int, int]:
        """Returns the times of some last phases, which total `total` seconds."""
        found = {}
        for phase, costs in zip(phases, tail[1:]):
            found[phase] = chosen(costs, self.waited(phase), total)
            total -= found[phase]
        return found

    def times(self, length: int, zero: int, hold: int) -> dict[int, int]:
        """Returns the times of all phases at the least cost, on a side of `length` seconds."""
        if self.at is None:
            return self.times_behind(self.phases, self.tail, length)
        ends = self.by_end(zero, hold)
        behind = chosen(ends, self.tail[0], length)
        end = length - behind
        start = np.arange(min(zero, end) + 1)
        begin = int(np.argmin(self.front[-1][start] + self.pair_cost[end - start]))
        found = {self.phases[self.at]: end - begin}
        for phase, costs in zip(reversed(self.phases[: self.at]), reversed(self.front[:-1]), strict=True):
            found[phase] = chosen(costs, self.waited(phase), begin)
            begin -= found[phase]
        return found | self.times_behind(self.phases[self.at + 1 :], self.tail, behind)


class Side:
    """A side of the barrier: the least cost for each length, and the times that have it."""

    def __init__(self, laid: Layout, side: frozenset[int], asked: Asked, most: int):
        self.rings = [Ring(laid, laid.of_side(side, ring), asked, most) for ring in (1, 2)]
        self.hold = max(laid.window_needs().values()) if self.rings[0].at is not None else 0
        self.zeros = np.zeros(most + 1, dtype=int)
        self.costs = self.plain() if self.rings[0].at is None else self.coordinated()

    def plain(self) -> np.ndarray:
        """Returns the costs of a side that isn't coordinated."""
        return np.minimum(sum(ring.tail[0] for ring in self.rings), NEVER)

    def coordinated(self) -> np.ndarray:
        """Returns the costs of the coordinated side, and keeps the best local zero for each length."""
        best = np.full(len(self.zeros), NEVER)
        for zero in range(len(best)):
            least = ceiling(self.hold + self.rings[0].clearance) + zero
            if least >= len(best):
                break
            costs = np.sum([added(ring.by_end(zero, self.hold), ring.tail[0]) for ring in self.rings], axis=0)
            costs[:least] = NEVER
            self.zeros = np.where(costs < best, zero, self.zeros)
            best = np.minimum(best, costs)
        return best

    def times(self, length: int) -> dict[int, int]:
        """Returns the times of all phases of both rings."""
        return {p: t for ring in self.rings for p, t in ring.times(length, int(self.zeros[length]), self.hold).items()}


def laid_out(laid: Layout, asked: Asked, most: int) -> tuple[list[Side], list[np.ndarray]]:
    """Returns the sides of a pattern, and the least costs of the first of them, of the first two, and so on, by their
    length in all."""
    sides = [Side(laid, it, asked, most) for it in laid.sides]
    totals = [np.where(np.arange(most + 1) == 0, 0, NEVER)]
    for side in sides:
        totals.append(np.minimum(added(totals[-1], side.costs), NEVER))
    return sides, totals


def refuse_shared(laid: Layout) -> None:
    """Refuses a split that patterns of other cycles have too."""
    tables = laid.tables
    users = [it for it in tables.patterns() if value(tables, ("pattern", it, 4)) == laid.split and it != laid.pattern]
    other = next((it for it in users if Layout(tables, it).cycle != laid.cycle), None)
    if other is not None:
        raise NoChange(
            f"pattern {laid.pattern} shares split {laid.split} with pattern {other}, which has another cycle: give it "
            "a split of its own"
        )


def least_change(tables: Tables, pattern: int, known: Intersection) -> Change:
    """Returns the least change of splits with which a pattern keeps rules 17 to 19, and has room after its lagging
    phases if the cycle is long enough; raises NoChange if there is none."""
    laid = Layout(tables, pattern)
    if not has_pair(tables, pattern):
        raise NoChange(f"pattern {pattern}: say first which phases it coordinates")
    refuse_shared(laid)
    rooms = lagging.first_needs(laid, known.partners)
    after = times_for(laid, Asked(known.partners, rooms)) if rooms else None
    roomy = tuple(sorted(rooms)) if after else ()
    after = after or times_for(laid, Asked(known.partners, {}))
    if after is None:
        refuse_cycle(laid, Asked(known.partners, {}))
    times = {it: laid.time(it) // 10 for it in after}
    changed = sorted(it for it in after if after[it] != times[it])
    return Change(pattern, laid.split, {it: times[it] for it in changed}, {it: after[it] for it in changed}, roomy)


def times_for(laid: Layout, asked: Asked) -> dict[int, int] | None:
    """Returns the splits at the least cost, or None if the cycle is too short for what is asked."""
    length, after = laid.cycle // 10, dict[int, int]()
    sides, totals = laid_out(laid, asked, length)
    if totals[-1][length] >= NEVER:
        return None
    for side, before in zip(reversed(sides), reversed(totals[:-1]), strict=True):
        share = chosen(before, side.costs, length)
        after |= side.times(share)
        length -= share
    return after


def refuse_cycle(laid: Layout, asked: Asked) -> NoReturn:
    """Refuses a cycle that is too short, with the shortest that is long enough."""
    enough = np.flatnonzero(laid_out(laid, asked, LONGEST)[1][-1] < NEVER)
    words = f"it needs a cycle of at least {enough[0]} s" if enough.size else "no cycle up to 255 s is long enough"
    raise NoChange(f"pattern {laid.pattern}: no splits keep the rules in a cycle of {laid.cycle // 10} s; {words}")


def apply(tables: Tables, change: Change) -> None:
    """Puts the splits of a change into tables."""
    for phase, time in change.after.items():
        put(tables, ("split", change.split, phase, 3), time)


def mend(tables: Tables, known: Intersection, made: list[Change]) -> Iterator[str]:
    """Puts the least changes into tables of patterns that break rule 17, 18 or 19, or of which a phase may be skipped
    after a lagging phase; adds the changes to `made`, and yields them in words, or why there are none."""
    broken = rules.broken(tables)
    first = next((it.rule for it in broken if it.rule in FIRST), None)
    refused = {it.row for it in broken if it.rule in SPLIT_RULES}
    if first is not None and (refused or tables.patterns()):
        yield f"mend rule {first} first: the splits depend on it"
        return
    patterns = refused | {it for it in tables.patterns() if lagging.is_short(Layout(tables, it), known.partners)}
    for pattern in sorted(patterns):
        try:
            change = least_change(tables, pattern, known)
            if pattern not in refused and not change.roomy:
                continue  # the cycle is too short for more than the rules ask
            apply(tables, change)
            made.append(change)
            yield change.words(known)
        except NoChange as why:
            yield str(why)
    still = {it.row for it in rules.broken(tables) if it.rule in SPLIT_RULES} - patterns
    for pattern in sorted(still):
        yield f"pattern {pattern} breaks a rule then, since it runs the same split: give it a split of its own"
