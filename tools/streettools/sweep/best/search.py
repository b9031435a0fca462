"""How a search goes on from the present plan: generation by generation, so that workers share each of them."""

import math
import warnings
from collections.abc import Callable, Sequence
from typing import Any

from .space import Places

Costs = Callable[[list[Places]], list[float]]
"""Gives the costs of a generation of plans."""

POPULATION = 8
"""Plans of a generation for each parameter."""
LEAST_PLANS = 16
"""Plans of a small generation."""
STEPS, NARROWER = 12, 3
"""Into how many steps a range is divided, and how much narrower it is in the next round."""


class Over(Exception):
    """The search is over: the budget is spent, or no plan is left."""


def evolved(costs: Costs, counts: Sequence[int], start: Places, seed: int) -> None:
    """Runs scipy's differential evolution from a plan until it raises `Over`, or until its plans are alike. Parameters
    of one value are left to it as they are."""
    import numpy as np
    from scipy.optimize import differential_evolution

    free = [place for place, count in enumerate(counts) if count > 1]
    if not free:
        return

    def plan_of(values: Any) -> Places:
        plan = list(start)
        for place, it in zip(free, values):
            plan[place] = round(float(it))
        return tuple(plan)

    def generation(many: Any) -> Any:
        return np.array(costs([plan_of(it) for it in np.atleast_2d(many.T)]))

    size = max(LEAST_PLANS, POPULATION * len(free)) / len(free)
    with warnings.catch_warnings():
        warnings.simplefilter("ignore")
        differential_evolution(
            generation, [(0, counts[it] - 1) for it in free], x0=[start[it] for it in free], seed=seed,
            integrality=np.full(len(free), True), popsize=math.ceil(size), maxiter=10**6, polish=False, vectorized=True,
            updating="deferred",
        )  # fmt: skip


def line(best: Places, moved: Sequence[int], width: int, count: int) -> list[Places]:
    """Returns plans in which some parameters are moved together: by equal steps, half of the width to each side. Values
    go round, as offsets do: the first follows the last."""
    half, step = width // 2, max(1, width // STEPS)
    found: dict[Places, None] = {}
    for shift in range(-half, half + 1, step):
        plan = list(best)
        for place in moved:
            plan[place] = (plan[place] + shift) % count
        found[tuple(plan)] = None
    return list(found)


def lines(costs: Costs, counts: Sequence[int], moves: Sequence[Sequence[int]], start: Places) -> None:
    """Improves a plan move by move: tries steps over the whole range of each, then ever nearer to the best, and goes
    round until nothing improves, or until it raises `Over`. A move is the places of parameters of one count."""
    best, at = start, costs([start])[0]
    widths = [counts[it[0]] for it in moves]
    while True:
        before = at
        for moved, width in zip(moves, widths):
            plans = line(best, moved, width, counts[moved[0]])
            found = costs(plans)
            if min(found) < at:
                at = min(found)
                best = plans[found.index(at)]
        if all(it <= STEPS for it in widths) and at == before:
            return
        widths = [max(min(counts[moved[0]], STEPS), it // NARROWER) for moved, it in zip(moves, widths)]
