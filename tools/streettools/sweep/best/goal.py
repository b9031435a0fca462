"""The goal of a search: the weighted sum of measures by which a plan is judged."""

import math
from typing import Any

from .. import choice
from ..one_run import Outcome
from ..prepared import Prepared, phases_of
from .wanted import Wanted

MEASURES = 3
"""The place of the first measure in the results of a run."""


class Goal:
    """The weighted sum of the measures of a run."""

    def __init__(self, wanted: Wanted, ready: Prepared) -> None:
        self.is_highest = wanted.is_highest
        self.parts = [(it.weight, self.places(it.words, ready)) for it in wanted.terms]

    def places(self, words: str, ready: Prepared) -> list[int]:
        """Returns the places of a term in the results of a run: of a measure with `each`, several."""
        names = [it.name() for it in ready.columns] + [it.name for it in ready.study.own]
        if words in names[len(ready.columns) :]:
            return [MEASURES + names.index(words)]
        base = ready.builder.document(ready.variants.at(0))["scenario"]
        spread = choice.spread_out([choice.column_of(words)], phases_of(base))
        return [MEASURES + names.index(it.name()) for it in spread]

    def of(self, row: list[Any]) -> float | None:
        """Returns the sum for the results of a run; None if the run isn't done, or if a term has nothing to
        measure."""
        if row[0] != Outcome.DONE:
            return None
        worst = min if self.is_highest else max
        total = 0.0
        for weight, places in self.parts:
            values = [weight * row[it] for it in places if isinstance(row[it], (int, float))]
            if not values:
                return None
            total += worst(values)
        return round(total, 9) if math.isfinite(total) else None

    def cost(self, value: float | None) -> float:
        """Returns what the search makes as low as possible."""
        return math.inf if value is None else -value if self.is_highest else value
