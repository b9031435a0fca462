"""The seeds of a comparison: those of its file, and how many more a wanted width may take."""

from dataclasses import dataclass

from ..shared.given import NUMBER, Given

MOST_SEEDS, GREATEST_SEED = 1000, 2**31 - 1
FIRST_SEEDS, USUAL_MOST = 5, 50
"""How many seeds are run before a width is looked at, and how many are run at most if a file doesn't say it."""


@dataclass(frozen=True)
class Wanted:
    """How wide half an interval may be, in seconds, and how many seeds are run at most for it."""

    width: float
    most_seeds: int


def seeds_of(given: Given) -> tuple[int, ...]:
    """Reads the seeds: a list, or how many there are, from 1 on."""
    if isinstance(given.table.get("seeds"), int) and not isinstance(given.table["seeds"], bool):
        return tuple(range(1, 1 + given.within("seeds", int, 1, MOST_SEEDS)))
    seeds = given.numbers("seeds") or (1, 2, 3)
    if len(set(seeds)) < len(seeds):
        raise given.refuse("seeds", "has one twice")
    return seeds


def wanted_of(given: Given) -> Wanted | None:
    """Reads the wanted width."""
    width = given.within("width", NUMBER, 0.001, 86_400)
    if width is None and "most_seeds" in given.table:
        raise given.refuse("most_seeds", "needs a width: without one, all seeds are run")
    most = given.within("most_seeds", int, FIRST_SEEDS, MOST_SEEDS, USUAL_MOST)
    return None if width is None else Wanted(float(width), most)


def begun(given: Given, seeds: tuple[int, ...], wanted: Wanted | None) -> tuple[int, ...]:
    """Returns the seeds that are run in any case: with a wanted width, five or more."""
    if wanted is None:
        return seeds
    if len(seeds) > wanted.most_seeds:
        raise given.refuse("most_seeds", f"is {wanted.most_seeds}, and there are {len(seeds)} seeds")
    if max(seeds) + wanted.most_seeds > GREATEST_SEED:
        raise given.refuse("seeds", f"leaves no numbers up to {GREATEST_SEED} for more seeds")
    return seeds + added(seeds, FIRST_SEEDS - len(seeds))


def added(seeds: tuple[int, ...], count: int) -> tuple[int, ...]:
    """Returns further seeds, as many as asked for: the numbers after the greatest one."""
    return tuple(range(max(seeds) + 1, max(seeds) + 1 + count))
