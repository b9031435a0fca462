"""A comparison of plans without SUMO: the same vehicles by volumes and queues, seed by seed, under each plan."""

import json
import pathlib
import time
from concurrent.futures import ProcessPoolExecutor
from dataclasses import dataclass

from ..shared.fault import Fault
from ..shared.given import Given
from ..shared.program import answering, ran
from ..shared.saying import say
from . import undisturbed
from .comparison import Result, Terms, terms_of, with_offsets, without_folders_of_before
from .loop import Times
from .queues import checks, keeping
from .queues import study as queue_study
from .queues.given import Street, fitted, read_street, read_volumes
from .queues.routes import is_route
from .queues.volumes import Volumes
from .records import Kind, Study
from .totals import Total, counted, totals_of

STEPS = (0.1, 0.2, 0.5, 1)


@dataclass(frozen=True)
class Plan:
    """A plan that is compared: its name, its sheet or scenario, offsets in seconds that are put into a pattern, or into
    the one in command, and the volumes, those of the comparison or its own."""

    name: str
    scenario: pathlib.Path
    offsets: tuple[int, ...]
    pattern: int | None
    volumes: pathlib.Path


@dataclass(frozen=True)
class Comparison:
    """A whole comparison: the plans, and on what terms they are compared."""

    plans: tuple[Plan, ...]
    terms: Terms


@dataclass(frozen=True)
class Job:
    """A run of a comparison: a plan under a seed, all that it needs, what the cabinets are called in the table, and the
    folder in which it is kept, if it is."""

    plan: Plan
    seed: int
    terms: Terms
    volumes: Volumes
    street: Street
    called: tuple[str, ...]
    program: str
    out: pathlib.Path | None


def of(given: Given, folder: pathlib.Path) -> Comparison:
    """Reads a comparison; files are named from its folder."""

    def plan_of(row: Given) -> Plan:
        name = row.need("name", str)
        row.place = f"plan {name}: "
        scenario = folder / row.need("scenario", str)
        offsets, pattern = row.numbers("offsets", 255), row.within("pattern", int, 1, 48)
        return Plan(name, scenario, offsets, pattern, folder / row.take("volumes", str, volumes))

    volumes = given.need("volumes", str)
    plans = given.each("plan", plan_of)
    return Comparison(plans, terms_of(given, plans, STEPS, 1))


def street_of(plan: Plan) -> Street:
    """Returns a plan's street, with its offsets put in."""
    read = read_street(plan.scenario)
    return Street(with_offsets(plan.name, read.scenario, plan.offsets, plan.pattern), read.names)


def names_of(streets: list[Street]) -> tuple[str, ...]:
    """Returns what each cabinet is called: by the first plan that has a name for it."""
    most = max(len(it.scenario["cabinets"]) for it in streets)
    known = [[it.called(number) for it in streets] for number in range(1, most + 1)]
    return tuple(
        next((it for it in names if it != f"cabinet {number}"), names[0]) for number, names in enumerate(known, 1)
    )


def groups_in(volumes: Volumes) -> set[str]:
    """Returns what can be compared of volumes, in words: the cabinets that vehicles pass, and persons."""
    groups = {f"vehicles at cabinet {it.cabinet}" for it in volumes.flows}
    return groups | ({"persons"} if volumes.crossings else set())


def same_groups(terms: Terms, volumes: dict[str, Volumes]) -> None:
    """Refuses plans whose volumes haven't the same groups, and routes that one of them hasn't."""
    against = groups_in(volumes[terms.against])
    for name, own in volumes.items():
        groups = groups_in(own)
        for group in sorted(groups ^ against):
            have, lack = (name, terms.against) if group in groups else (terms.against, name)
            raise Fault(f"plan {name}: the volumes of plan {have} have {group}, those of plan {lack} haven't")
        for route in terms.routes:
            if not is_route(own, route):
                raise Fault(f"plan {name}: its volumes have no route {route}")


def jobs_of(comparison: Comparison, program: str | None, out: pathlib.Path, keep: bool) -> list[Job]:
    """Returns all runs of a comparison, seed by seed; what is wrong with one of them is said before anything runs."""
    path, terms = str(answering(program, lambda line: say("cosim", line), is_long=True)), comparison.terms
    read = {path: read_volumes(path) for path in dict.fromkeys(it.volumes for it in comparison.plans)}
    rows = []
    for place, plan in enumerate(comparison.plans, 1):
        street = street_of(plan)
        fits = fitted(read[plan.volumes], street)
        try:
            checks.check(fits, street.scenario, terms.seconds)
            ran(path, "live", given=json.dumps(street.scenario).encode()).done()
        except Fault as fault:
            raise Fault(f"plan {plan.name}: {fault}", fault.status) from None
        rows.append((place, plan, fits, street))
    same_groups(terms, {plan.name: fits for _, plan, fits, _ in rows})
    called = names_of([street for *_, street in rows])
    jobs = [
        Job(plan, seed, terms, fits, street, called, path, out / f"{place:02}-{seed}" if keep else None)
        for seed in terms.seeds
        for place, plan, fits, street in rows
    ]
    without_folders_of_before([job.out for job in jobs if job.out is not None])
    return jobs


def do(job: Job) -> Result:
    """Does a run, and returns what it came to."""
    begun, terms = time.perf_counter(), job.terms
    asked = queue_study.Asked(terms.seconds, round(10 * terms.step), job.seed, terms.warm, keeps_trace=True)
    came = queue_study.run(job.program, job.volumes, job.street.scenario, asked, lambda step: None)
    study = queue_study.study_of(came, (job.out or pathlib.Path()) / keeping.TRACE)
    if job.out is not None:
        keeping.write(job.out, came, study, job.street, keeping.value_of(came, study, job.street))
    quiet = undisturbed.mean(undisturbed.shares(came.trace or b"", terms.warm, terms.seconds - terms.warm))
    times = Times(whole=time.perf_counter() - begun, steps=round(terms.seconds / terms.step))
    return Result(totals(study, job), times, quiet)


def totals(study: Study, job: Job) -> dict[str, Total]:
    """Returns what trips come to: of all vehicles, of named routes, of persons, and at each intersection."""
    trips = counted(study.trips, study.warm, study.seconds)
    found = totals_of(trips, job.terms.routes)
    passages = [it for trip in trips if trip.kind is not Kind.PERSON for it in trip.passages]
    for cabinet in range(1, study.cabinets + 1):
        own = [it for it in passages if it.cabinet == cabinet]
        if own:
            delay, stops = sum(it.delay for it in own), sum(it.stopped for it in own)
            found[f"at {job.called[cabinet - 1]}"] = Total(len(own), delay / len(own), stops / len(own))
    return found


def pool_of(workers: int) -> ProcessPoolExecutor:
    """Returns what does runs."""
    return ProcessPoolExecutor(max_workers=workers)
