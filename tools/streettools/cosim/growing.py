"""As many seeds as a wanted width asks: seeds are added to a comparison until its intervals are as narrow."""

from collections.abc import Callable, Sequence
from dataclasses import dataclass, replace
from typing import Generic

from .comparison import Each, Named, Result, Row, Terms, rows_of
from .seeds import added
from .totals import ALL


def with_seed(job: Each, seed: int) -> Each:
    """Returns the run of the same plan under another seed."""
    out = None if job.out is None else job.out.with_name(f"{job.out.name.rpartition('-')[0]}-{seed}")
    return replace(job, seed=seed, out=out)


def width_of(terms: Terms, rows: Sequence[Row]) -> float | None:
    """Returns half of the widest interval of the difference in delay of all vehicles; None where a plan has none."""
    others = [it.more_delay for it in rows if it.group == ALL and it.plan != terms.against]
    halves = [it.half for it in others if it is not None and it.half is not None]
    return max(halves) if halves and len(halves) == len(others) else None


@dataclass
class Grown(Generic[Each]):
    """The runs of a comparison that has as many seeds as it needs."""

    terms: Terms
    jobs: list[Each]
    results: list[Result]


def grown(
    terms: Terms, plans: Sequence[Named], jobs: list[Each], ahead: int, do: Callable[[list[Each]], list[Result]]
) -> Grown[Each]:
    """Does all runs, and adds seeds one by one until the intervals are as narrow as is wanted. `ahead` seeds are run at
    once; those of them that aren't needed are left out, so the table is that of one at a time."""
    wanted, first = terms.wanted, jobs[: len(plans)]
    results = do(jobs)
    waiting: list[tuple[Each, Result]] = []
    while wanted is not None and len(terms.seeds) < wanted.most_seeds:
        width = width_of(terms, rows_of(terms, plans, jobs, results))
        if width is None or width <= wanted.width:
            break
        if not waiting:
            more = added(terms.seeds, min(ahead, wanted.most_seeds - len(terms.seeds)))
            again = [with_seed(job, seed) for seed in more for job in first]
            waiting = list(zip(again, do(again)))
        now, waiting = waiting[: len(plans)], waiting[len(plans) :]
        jobs, results = jobs + [job for job, _ in now], results + [result for _, result in now]
        terms = replace(terms, seeds=terms.seeds + (now[0][0].seed,))
    return Grown(terms, jobs, results)
