"""A comparison of plans under SUMO: several of them over the same seeds, as a TOML file says it."""

import pathlib
import tempfile
from concurrent.futures import ProcessPoolExecutor
from dataclasses import dataclass, replace
from typing import Any

from ..shared.fault import Fault
from ..shared.given import Given, read_toml
from ..shared.program import found
from . import drive, network, run, undisturbed, yardsticks
from .comparison import Result, Terms, terms_of, with_offsets, without_folders_of_before
from .drive import read_config
from .loop import Given as RunGiven
from .mapping import read_map
from .totals import counted, totals_of

CABINETS = "cabinets"
CONTROLLERS = (CABINETS, *yardsticks.MAKERS, yardsticks.STATIC)


@dataclass(frozen=True)
class Plan:
    """A plan that is compared: its name, its scenario (offsets in seconds put into a pattern, or into the one in
    command, where they are given), who switches the signals, whether buses ask for priority; SUMO's configuration and
    the map, those of the comparison or its own."""

    name: str
    scenario: pathlib.Path
    offsets: tuple[int, ...]
    pattern: int | None
    controller: str
    priority: bool
    config: pathlib.Path
    map: pathlib.Path


@dataclass(frozen=True)
class Comparison:
    """A whole comparison: the plans, and on what terms they are compared."""

    plans: tuple[Plan, ...]
    terms: Terms


@dataclass(frozen=True)
class Job:
    """A run of a comparison: a plan under a seed, the program (None where SUMO's own controllers run), its folder."""

    comparison: Comparison
    plan: Plan
    seed: int
    program: pathlib.Path | None
    out: pathlib.Path
    keep: bool


def of(given: Given, folder: pathlib.Path) -> Comparison:
    """Reads a comparison; files are named from its folder."""

    def plan_of(row: Given) -> Plan:
        row.place = f"plan {row.need('name', str)}: "
        controller = row.take("controller", str, CABINETS)
        if controller not in CONTROLLERS:
            raise row.refuse("controller", f"is {controller}, and has to be {', '.join(CONTROLLERS)}")
        return Plan(
            row.need("name", str),
            folder / row.need("scenario", str),
            row.numbers("offsets", 255),
            row.within("pattern", int, 1, 48),
            controller,
            row.take("priority", bool, True),
            folder / row.take("sumo", str, config),
            folder / row.take("map", str, street),
        )

    config, street = given.need("sumo", str), given.need("map", str)
    plans = given.each("plan", plan_of)
    return Comparison(plans, terms_of(given, plans, (0.1, 1), 0.1))


def read_comparison(path: pathlib.Path) -> Comparison:
    """Reads a comparison under SUMO."""
    return of(read_toml(path), path.parent)


def has_walks(plan: Plan) -> bool:
    """Tells whether persons walk over crossings with signals under a plan."""
    walks = any(it.walk for signal in read_map(plan.map).signals for it in signal.movements)
    return walks and read_config(plan.config).has_persons()


def without_walks(comparison: Comparison) -> tuple[Comparison, list[str]]:
    """Returns a comparison without the plans of SUMO's NEMA and actuated controllers where persons walk over crossings
    with signals, and the names of those plans: these controllers have no walk times, so a crossing would stay open all
    green and hold the vehicles that turn."""
    left = [it.name for it in comparison.plans if it.controller in yardsticks.MAKERS and has_walks(it)]
    if not left:
        return comparison, []
    plans = tuple(it for it in comparison.plans if it.name not in left)
    if len(plans) < 2 or comparison.terms.against in left:
        words = "SUMO's own controllers have no walk times, and persons walk here"
        raise Fault(f"{', '.join(left)}: {words}: compare without persons, or leave them out")
    return replace(comparison, plans=plans), left


def scenario_of(plan: Plan) -> dict[str, Any]:
    """Returns a plan's scenario, with its offsets put in."""
    return with_offsets(plan.name, run.read_scenario(plan.scenario), plan.offsets, plan.pattern)


def given_of(comparison: Comparison, plan: Plan, seed: int | None) -> RunGiven:
    """Reads all files of a run."""
    config = read_config(plan.config)
    return RunGiven(
        config,
        read_map(plan.map),
        network.read(config.network),
        scenario_of(plan),
        comparison.terms.step,
        comparison.terms.seconds,
        seed,
        plan.priority,
        comparison.terms.warm,
    )


def do(job: Job) -> Result:
    """Does a run in its folder, which it makes; one that isn't kept has a name that nothing else has."""
    job.out.parent.mkdir(parents=True, exist_ok=True)
    if job.keep:
        job.out.mkdir()
        return done_in(job, job.out)
    with tempfile.TemporaryDirectory(prefix=f"{job.out.name}-", dir=job.out.parent) as folder:
        return done_in(job, pathlib.Path(folder))


def done_in(job: Job, out: pathlib.Path) -> Result:
    """Does a run in a folder, and returns what it came to; one that ended before its time is a fault."""
    given, quiet = given_of(job.comparison, job.plan, job.seed), {}
    if job.program is None:
        trips, times = yardsticks.run(given, job.plan.controller, out, lambda count: None)
    else:
        done = run.run(given, job.program, out, lambda count: None)
        if done.fault or done.study is None:
            raise Fault(f"plan {job.plan.name}, seed {job.seed}: {done.fault or 'nothing was recorded'}")
        trips, times = done.study.trips, done.times
        quiet = undisturbed.shares(done.study.trace.read_bytes(), given.warm, given.seconds - given.warm)
    kept = counted(trips, given.warm, given.seconds)
    return Result(totals_of(kept, job.comparison.terms.routes), times, undisturbed.mean(quiet))


def jobs_of(comparison: Comparison, program: str | None, out: pathlib.Path, keep: bool) -> list[Job]:
    """Returns all runs of a comparison, seed by seed; what is wrong with one of them is said before anything runs, also
    that the folder of one that is to be kept is there."""
    drive.module()
    path = found(program)
    for plan in comparison.plans:
        given = given_of(comparison, plan, None)
        run.preflight(given, path)
        if plan.controller in yardsticks.MAKERS:
            yardsticks.programs(given, plan.controller)
    jobs = [
        Job(comparison, plan, seed, path if plan.controller == CABINETS else None, out / f"{number:02}-{seed}", keep)
        for seed in comparison.terms.seeds
        for number, plan in enumerate(comparison.plans, 1)
    ]
    if keep:
        without_folders_of_before([job.out for job in jobs])
    return jobs


def pool_of(workers: int) -> ProcessPoolExecutor:
    """Returns what does runs, each in a process of its own."""
    return ProcessPoolExecutor(max_workers=workers, max_tasks_per_child=1)
