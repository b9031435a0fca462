"""The table `best` of a study: what a plan is judged by, how many runs the search may make, what is kept for the
comparison at the end."""

from dataclasses import dataclass
from typing import Any

from ...cosim.seeds import GREATEST_SEED, MOST_SEEDS, added
from ...shared.fault import Fault
from ...shared.given import NUMBER, Given
from ..choice import column_of
from ..study import STUDY, BaseKind, Fetch, Study, study_of
from ..values import Kind

TABLE = "best"
MOST_RUNS, MOST_WEIGHT = 10**6, 10**6
HELD_BACK = 10
"""How many seeds are held back by default."""
AIMS = ("lowest", "highest")


@dataclass(frozen=True)
class Term:
    """A part of the goal: a measure, or a custom measure, by its words in the study, times a weight."""

    words: str
    weight: float


@dataclass(frozen=True)
class Wanted:
    """What is looked for: the terms of the goal, whether their sum is to be the highest, how many runs the search may
    make, the seed of the search, the seeds of its runs, those that are held back, and the file of the present plan,
    None for the study's own base."""

    terms: tuple[Term, ...]
    is_highest: bool
    budget: int
    seed: int
    seeds: tuple[int, ...]
    held_back: tuple[int, ...]
    present: str | None

    def each(self) -> int:
        """Returns how many runs a plan takes."""
        return max(1, len(self.seeds))


def terms_of(given: Given, owns: tuple[str, ...]) -> tuple[Term, ...]:
    """Reads the goal: a weight for each measure."""
    goal = Given(given.need("goal", dict), STUDY, "best.goal")
    if not goal.table:
        raise given.refuse("goal", "is empty: expected a weight for each measure, as {delay_mean = 1}")
    found = []
    for words in goal.table:
        weight = goal.need(words, NUMBER)
        if words not in owns:
            column_of(words)
        if not weight or abs(weight) > MOST_WEIGHT:
            raise goal.refuse(words, f"is {weight}, and a weight is not 0 and at most {MOST_WEIGHT:,}")
        found.append(Term(words, float(weight)))
    return tuple(found)


def is_random(study: Study) -> bool:
    """Tells whether the runs of a study depend on a seed."""
    flows = study.tables.get("traffic", {}).get("flow")
    return bool(flows or {"line", "volumes"} & set(study.tables)) or study.base.kind is BaseKind.GENERATE


def held_of(given: Given, seeds: tuple[int, ...]) -> tuple[int, ...]:
    """Reads how many seeds are held back: the numbers after those of the search."""
    if not seeds:
        if given.take("held_back", int, 0):
            raise given.refuse("held_back", "needs something random: without it, a run has no seed")
        return ()
    count = given.within("held_back", int, 2, MOST_SEEDS, HELD_BACK)
    if max(seeds) + count > GREATEST_SEED:
        raise given.refuse("held_back", f"leaves no numbers up to {GREATEST_SEED} for these seeds")
    return added(seeds, count)


def check_parameters(study: Study) -> None:
    """Refuses what a search can't vary."""
    if not study.parameters:
        raise Fault("study: vary is missing: a search needs a parameter")
    random = next((it.name for it in study.parameters if it.values.kind is Kind.RANDOM), None)
    if random is not None:
        raise Fault(f"study: {random}: a search takes values, range or option, not random")


def wanted_of(document: dict[str, Any], fetch: Fetch) -> tuple[Wanted, dict[str, Any]]:
    """Reads the table `best` of a study. Returns it, and the study that is run: with the measures of the goal, and with
    all seeds."""
    if TABLE not in document:
        raise Fault("study: best is missing: the table with the goal and the budget (docs/SWEEP.md)")
    given = Given(document[TABLE], STUDY, TABLE)
    rest = {name: it for name, it in document.items() if name != TABLE}
    own = rest.get("own")
    owns = tuple(str(it.get("name")) for it in own if isinstance(it, dict)) if isinstance(own, list) else ()
    terms = terms_of(given, owns)
    asked = rest.get("measures", [])
    if isinstance(asked, list):
        rest["measures"] = [*asked, *(it.words for it in terms if it.words not in (*asked, *owns))]
    study = study_of(rest, fetch)
    check_parameters(study)
    seeds = study.seeds or ((1,) if is_random(study) else ())
    budget = given.need("budget", int)
    if not max(1, len(seeds)) <= budget <= MOST_RUNS:
        raise given.refuse("budget", f"is {budget}, and has to be {max(1, len(seeds))} to {MOST_RUNS:,} runs: "
                           "a plan takes one for each seed")  # fmt: skip
    aim = given.take("wanted", str, AIMS[0])
    if aim not in AIMS:
        raise given.refuse("wanted", f"is {aim!r}, and has to be {' or '.join(AIMS)}")
    held = held_of(given, seeds)
    present = given.take("present", str)
    if present is not None:
        fetch(present)
    seed = given.within("seed", int, 0, 2**32 - 1, 1)
    given.end()
    if seeds:
        rest["seeds"] = [*seeds, *held]
    return Wanted(terms, aim == AIMS[1], budget, seed, seeds, held, present), rest
