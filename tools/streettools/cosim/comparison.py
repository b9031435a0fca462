"""What all comparisons share, whoever moves the vehicles: several plans over the same seeds, and how they differ."""

import pathlib
import statistics
from collections.abc import Callable, Sequence
from concurrent.futures import ProcessPoolExecutor
from concurrent.futures.process import BrokenProcessPool
from dataclasses import dataclass
from typing import Any, Protocol, TypeVar

from ..shared.fault import Fault
from ..shared.given import NUMBER, Given
from ..shared.status import Status
from .loop import Times
from .seeds import Wanted, begun, seeds_of, wanted_of
from .totals import Mean, Total, mean_of, paired_p

class Named(Protocol):
    """A plan by its name."""

    @property
    def name(self) -> str: ...


@dataclass(frozen=True)
class Terms:
    """On what terms plans are compared: the seeds, the seconds of a step and of a run, those that are cut off at both
    ends, the routes that are shown, the plan with which the others are compared, and the wanted width of the intervals
    of the difference in delay, None if the seeds are all that are run."""

    seeds: tuple[int, ...]
    step: float
    seconds: float
    warm: float
    routes: tuple[str, ...]
    against: str
    wanted: Wanted | None = None


@dataclass
class Result:
    """What a run came to: totals by group, times, and the share of the time in which coordination was undisturbed, None
    where that isn't known."""

    totals: dict[str, Total]
    times: Times
    undisturbed: float | None = None


class Job(Protocol):
    """A run of a comparison: a plan under a seed."""

    @property
    def plan(self) -> Named: ...

    @property
    def seed(self) -> int: ...

    @property
    def out(self) -> pathlib.Path | None: ...


Each = TypeVar("Each", bound=Job)


def terms_of(given: Given, plans: Sequence[Named], steps: tuple[float, ...], usual: float) -> Terms:
    """Reads the terms, which go with all plans."""
    names = [it.name for it in plans]
    if len(plans) < 2 or len(set(names)) < len(names):
        raise given.refuse("plan", "is needed at least twice, each with a different name")
    step, against = given.take("step", NUMBER, usual), given.take("against", str, names[0])
    if step not in steps:
        raise given.refuse("step", "has to be " + " or ".join(f"{it:g}" for it in steps))
    if against not in names:
        raise given.refuse("against", f"is {against}, and no plan has this name")
    wanted = wanted_of(given)
    found = Terms(
        begun(given, seeds_of(given), wanted),
        float(step),
        given.within("seconds", NUMBER, 1, 86_400, 3600),
        given.within("warm", NUMBER, 0, 43_200, 0),
        given.texts("routes"),
        against,
        wanted,
    )
    given.end()
    if 2 * found.warm >= found.seconds:
        raise given.refuse("warm", "leaves nothing: it is cut off at the beginning and at the end")
    return found


def with_offsets(name: str, scenario: dict[str, Any], offsets: tuple[int, ...], pattern: int | None) -> dict[str, Any]:
    """Returns a plan's scenario with offsets put into a pattern, or into the one in command."""
    if not offsets:
        return scenario
    cabinets = scenario.get("cabinets", [])
    if len(offsets) != len(cabinets):
        raise Fault(f"plan {name}: {len(offsets)} offsets for {len(cabinets)} cabinets")
    made = []
    for number, (setup, offset) in enumerate(zip(cabinets, offsets), 1):
        place = setup.get("pattern", 0) if pattern is None else pattern
        if not 1 <= place <= 48:
            words = f"offsets need a pattern in command, and cabinet {number} has none: write pattern = 1"
            raise Fault(f"plan {name}: {words}")
        made.append(setup | {"cells": [*setup.get("cells", ()), ["pattern", place, 3, offset]]})
    return scenario | {"cabinets": made}


def without_folders_of_before(folders: Sequence[pathlib.Path]) -> None:
    """Refuses folders that are to be kept, and that are there already."""
    there = next((it for it in folders if it.exists()), None)
    if there is not None:
        raise Fault(f"{there} is there from an earlier comparison: name another folder, or take it away", Status.FILE)


def do_all(
    jobs: list[Each], do: Callable[[Each], Result], pool: ProcessPoolExecutor, progress: Callable[[int], object]
) -> list[Result]:
    """Does all runs in other processes, and returns what they came to in their order."""
    with pool:
        waiting = [pool.submit(do, job) for job in jobs]
        for it in waiting:
            it.add_done_callback(lambda done: progress(1))
        try:
            return [it.result() for it in waiting]
        except BrokenProcessPool:
            dead = next(job for job, it in zip(jobs, waiting) if it.exception() is not None)
            words = f"the run of plan {dead.plan.name}, seed {dead.seed}, crashed, or a plan that ran in parallel"
            raise Fault(words, Status.FILE) from None
        except BaseException:
            pool.shutdown(cancel_futures=True)
            raise


@dataclass
class Row:
    """A plan's numbers in one group: how many trips a run has, delay and stops with their intervals, and how much more
    these are than those of the plan that stands against (None for that plan itself), with the p values of the paired t
    test."""

    plan: str
    group: str
    trips: float
    delay: Mean
    stops: Mean
    more_delay: Mean | None
    more_stops: Mean | None
    delay_p: float | None = None
    stops_p: float | None = None


def whole(found: list[Total | None]) -> list[Total] | None:
    """Returns a list without gaps; None if it has one."""
    kept = [it for it in found if it is not None]
    return kept if len(kept) == len(found) else None


def rows_of(terms: Terms, plans: Sequence[Named], jobs: Sequence[Job], results: list[Result]) -> list[Row]:
    """Returns the table of a comparison: plans paired by seed, group by group."""
    totals = {(job.plan.name, job.seed): result.totals for job, result in zip(jobs, results)}
    groups = list(dict.fromkeys(group for result in results for group in result.totals))
    rows = []
    for group in groups:
        base = whole([totals[terms.against, seed].get(group) for seed in terms.seeds])
        for plan in plans:
            own = whole([totals[plan.name, seed].get(group) for seed in terms.seeds])
            if own is None:
                continue
            pairs = [] if plan.name == terms.against else list(zip(own, base or ()))
            delays, stops = [a.delay - b.delay for a, b in pairs], [a.stops - b.stops for a, b in pairs]
            rows.append(
                Row(
                    plan.name,
                    group,
                    statistics.fmean(it.trips for it in own),
                    mean_of([it.delay for it in own]),
                    mean_of([it.stops for it in own]),
                    mean_of(delays) if delays else None,
                    mean_of(stops) if stops else None,
                    paired_p(delays),
                    paired_p(stops),
                )
            )
    return rows


def undisturbed_of(plans: Sequence[Named], jobs: Sequence[Job], results: list[Result]) -> dict[str, float | None]:
    """Returns, plan by plan, the share of the time in which coordination was undisturbed, over all seeds."""
    found: dict[str, float | None] = {}
    for plan in plans:
        known = [it.undisturbed for job, it in zip(jobs, results) if job.plan.name == plan.name]
        shares = [it for it in known if it is not None]
        found[plan.name] = statistics.fmean(shares) if shares and len(shares) == len(known) else None
    return found
