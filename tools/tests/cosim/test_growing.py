"""As many seeds as a wanted width asks: by differences whose intervals are worked by hand."""

import pathlib
from dataclasses import dataclass

import pytest

from .conftest import TOP  # noqa: F401 (puts the tools on the path)
from streettools.cosim import verdicts
from streettools.cosim.comparison import Result, Terms, rows_of, terms_of
from streettools.cosim.growing import grown, width_of
from streettools.cosim.loop import Times
from streettools.cosim.seeds import Wanted
from streettools.cosim.totals import ALL, Total
from streettools.shared.fault import Fault
from streettools.shared.given import Given


@dataclass(frozen=True)
class Plan:
    """A plan by its name."""

    name: str


@dataclass(frozen=True)
class Job:
    """A run of a plan under a seed."""

    plan: Plan
    seed: int
    out: pathlib.Path | None = None


PLANS = (Plan("one"), Plan("two"))
MORE = (0, 2, 0, 2, 0, 1, 1, 9)
"""By how much the delay of the second plan is more, from seed 1 on. Half an interval over the first 5 is
2.776 x 1.0954 / 2.2361 = 1.360, over 6 it is 2.571 x 0.9832 / 2.4495 = 1.032, over 7 it is 2.447 x 0.8997 / 2.6458 =
0.832."""


def result(job: Job) -> Result:
    """Returns what a run comes to."""
    delay = 20.0 + job.seed + (MORE[job.seed - 1] if job.plan.name == "two" else 0)
    return Result({ALL: Total(100, delay, 1.0)}, Times())


def ran(width: float, most: int, ahead: int = 1):
    """Returns the runs of a comparison with a wanted width, and the seeds that were run in all."""
    terms, done = Terms((1, 2, 3, 4, 5), 1.0, 600.0, 0.0, (), "one", Wanted(width, most)), []

    def do(jobs):
        done.extend(jobs)
        return [result(job) for job in jobs]

    found = grown(terms, PLANS, [Job(plan, seed) for seed in terms.seeds for plan in PLANS], ahead, do)
    return found, sorted({it.seed for it in done})


@pytest.mark.parametrize(
    ("width", "most", "seeds", "reached"),
    [(1.4, 8, 5, 1.360), (1.1, 8, 6, 1.032), (0.9, 8, 7, 0.832), (0.5, 6, 6, 1.032), (0.5, 5, 5, 1.360)],
)
@pytest.mark.parametrize("ahead", [1, 2, 4])
def test_seeds_are_added_until_the_interval_is_as_narrow_or_the_most_are_run(width, most, seeds, reached, ahead):
    found, tried = ran(width, most, ahead)
    assert found.terms.seeds == tuple(range(1, seeds + 1)) and max(tried) <= most
    rows = rows_of(found.terms, PLANS, found.jobs, found.results)
    assert width_of(found.terms, rows) == pytest.approx(reached, abs=0.001)
    assert [it.seed for it in found.jobs] == [seed for seed in found.terms.seeds for _ in PLANS]
    said = " ".join(verdicts.of_width(found.terms, width_of(found.terms, rows)))
    assert f"± {reached:.2f} s after {seeds} seeds, " + ("the most allowed" if reached > width else "as narrow") in said


def test_a_difference_without_vehicles_ends_the_adding():
    terms = Terms((1, 2), 1.0, 600.0, 0.0, (), "one", Wanted(1.0, 50))
    jobs = [Job(plan, seed) for seed in terms.seeds for plan in PLANS]
    found = grown(terms, PLANS, jobs, 1, lambda some: [Result({}, Times()) for _ in some])
    assert found.terms.seeds == (1, 2)


@pytest.mark.parametrize(
    ("table", "seeds", "most"),
    [
        ({"width": 1}, (1, 2, 3, 4, 5), 50),
        ({"width": 0.5, "seeds": [1, 9], "most_seeds": 7}, (1, 9, 10, 11, 12), 7),
        ({"width": 1, "seeds": 6}, (1, 2, 3, 4, 5, 6), 50),
    ],
)
def test_five_seeds_or_more_come_first(table, seeds, most):
    terms = terms_of(Given(table, "x.toml"), PLANS, (1,), 1)
    assert terms.seeds == seeds and terms.wanted == Wanted(table["width"], most)


@pytest.mark.parametrize(
    ("table", "line"),
    [
        ({"most_seeds": 9}, "most_seeds needs a width"),
        ({"width": 0}, "width is 0, and has to be 0.001 to 86400"),
        ({"width": "1"}, "width has to be a number"),
        ({"width": 1, "most_seeds": 4}, "most_seeds is 4, and has to be 5 to 1000"),
        ({"width": 1, "most_seeds": 5, "seeds": 6}, "most_seeds is 5, and there are 6 seeds"),
        ({"width": 1, "seeds": [2147483600]}, "seeds leaves no numbers up to 2147483647"),
    ],
)
def test_a_width_that_cant_be_taken_is_refused(table, line):
    with pytest.raises(Fault, match=line):
        terms_of(Given(table, "x.toml"), PLANS, (1,), 1)
