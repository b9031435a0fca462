"""The plans that a search tries: which are run, which are repaired or left out, what each comes to."""

import math
import statistics
from collections.abc import Callable
from dataclasses import dataclass, field
from typing import Any

from ..engine import Engine
from ..journal import Journal
from ..one_run import Outcome
from ..prepared import Keys
from ..variants import Asked, Placed
from .goal import Goal
from .plans import Kept, Rules, Unfit
from .search import Over
from .space import Places, Space
from .wanted import Wanted

MOST_UNFIT, MOST_IDLE = 2000, 500
"""How many plans may be left out, and how many generations may have no new plan, one after another."""


@dataclass
class Try:
    """A plan that was run: its number from 1, its places (none for the present plan), its runs with their keys and
    results, seed by seed, and the mean of the goal over them, None if a run gave none."""

    number: int
    places: Places | None
    runs: list[Placed]
    keys: list[str]
    is_repaired: bool = False
    rows: list[list[Any]] = field(default_factory=list)
    value: float | None = None


class Runs:
    """Does runs, as far as they aren't done already, and returns their results in order."""

    def __init__(self, keys: Keys, journal: Journal, engine: Engine, advance: Callable[[int], object]) -> None:
        self.keys, self.journal, self.engine, self.advance = keys, journal, engine, advance

    def key(self, asked: Asked) -> str:
        """Returns the key of a run."""
        return self.keys.of(self.keys.prepared.variants.of(asked))

    def done(self, runs: list[tuple[Placed, str]]) -> list[list[Any]]:
        """Returns the results of runs with their keys."""
        pending = [it for it in runs if it[1] not in self.journal]
        self.advance(len(runs) - len(pending))
        if pending:
            self.engine.run(iter(pending), len(pending))
        return [self.journal.row(key) for _, key in runs]


class Tries:
    """The plans of a search, in the order in which they are tried."""

    def __init__(self, wanted: Wanted, space: Space, rules: Rules, goal: Goal, runs: Runs) -> None:
        self.wanted, self.space, self.rules, self.goal, self.runs = wanted, space, rules, goal, runs
        self.all: list[Try] = []
        self.by_places: dict[Places, Try | None] = {}
        """Plans by their places; None for those that are left out."""
        self.by_identity: dict[str, Try] = {}
        self.repaired, self.unfit, self.spent = 0, 0, 0
        self.unfit_now, self.idle = 0, 0
        """Plans that were left out since the last that wasn't, and generations since the last with a new plan."""
        self.first_unfit: tuple[Places, str] | None = None
        self.present: Try | None = None
        self.present_unfit = ""
        self.tell: Callable[[], object] = lambda: None

    def best(self) -> Try | None:
        """Returns the best plan; of equal ones the first."""
        costs = [self.goal.cost(it.value) for it in self.all]
        least = min(costs, default=math.inf)
        return self.all[costs.index(least)] if least < math.inf else None

    def try_present(self) -> None:
        """Runs the present plan, if it keeps the rules."""
        base = self.wanted.present or ""
        try:
            kept = self.rules.kept(self.space.ready.variants.of((0, (), base)))
        except Unfit as why:
            self.present_unfit = str(why)
            return
        if kept.cells:
            self.present_unfit = "it breaks a rule"
            return
        self.present = self.added(None, [(it, (), base) for it in range(self.wanted.each())])
        self.by_identity[kept.identity] = self.present
        self.run([self.present])

    def costs(self, plans: list[Places]) -> list[float]:
        """Returns the costs of a generation. Its new plans are run, in order, as far as the budget goes; then `Over` is
        raised."""
        new: list[Try] = []
        is_over, known = False, len(self.by_places)
        for it in plans:
            if it in self.by_places:
                continue
            if self.left() < self.wanted.each():
                is_over = True
                break
            if (made := self.made(it)) is not None:
                new.append(made)
        self.run(new)
        self.idle = 0 if len(self.by_places) > known else self.idle + 1
        if is_over or self.is_over():
            raise Over
        return [self.cost(it) for it in plans]

    def cost(self, places: Places) -> float:
        """Returns the cost of a plan that is known; one that is left out costs most."""
        found = self.by_places[places]
        return self.goal.cost(found.value if found is not None else None)

    def is_over(self) -> bool:
        """Tells whether no plan is left, or none is found any more."""
        is_whole = len(self.by_places) == math.prod(self.space.counts)
        return is_whole or self.unfit_now >= MOST_UNFIT or self.idle >= MOST_IDLE

    def left(self) -> int:
        """Returns how many runs of the budget are left."""
        return self.wanted.budget - self.spent

    def made(self, places: Places) -> Try | None:
        """Returns a plan that has to be run; None if it is left out, or if an equal one is there."""
        try:
            kept = self.rules.kept(self.space.variant(places))
        except Unfit as why:
            self.unfit, self.unfit_now = self.unfit + 1, self.unfit_now + 1
            self.first_unfit = self.first_unfit or (places, str(why))
            self.by_places[places] = None
            return None
        if (equal := self.by_identity.get(kept.identity)) is not None:
            self.by_places[places] = equal
            return None
        return self.fresh(places, kept)

    def fresh(self, places: Places, kept: Kept) -> Try:
        """Returns a plan that wasn't there before."""
        runs = [self.space.place(places, it, kept.cells) for it in range(self.wanted.each())]
        found = self.added(places, runs)
        self.unfit_now = 0
        found.is_repaired = bool(kept.cells)
        self.repaired += found.is_repaired
        self.by_places[places] = self.by_identity[kept.identity] = found
        return found

    def added(self, places: Places | None, runs: list[Placed]) -> Try:
        """Adds a plan, whose runs are taken off the budget."""
        found = Try(len(self.all) + 1, places, runs, [self.runs.key(it) for it in runs])
        self.all.append(found)
        self.spent += len(runs)
        return found

    def run(self, tries: list[Try]) -> None:
        """Runs plans, and keeps what they come to."""
        each = self.wanted.each()
        rows = self.runs.done([pair for it in tries for pair in zip(it.runs, it.keys)])
        for place, it in enumerate(tries):
            it.rows = rows[place * each : (place + 1) * each]
            values = [self.goal.of(row) for row in it.rows]
            known = [value for value in values if value is not None]
            it.value = round(statistics.fmean(known), 9) if len(known) == len(values) else None
        if tries:
            self.tell()

    def outcomes(self) -> dict[str, int]:
        """Returns how many runs came to each outcome."""
        rows = [row[0] for it in self.all for row in it.rows]
        return {it.value: rows.count(it) for it in Outcome}
