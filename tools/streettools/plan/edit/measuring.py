"""What a plan costs vehicles, by the model of queues (docs/QUEUES.md): delay, stops and queues before and after.

The model runs in a process of its own (`python3 -m streettools.plan.edit.measuring`), so that pages are answered
meanwhile: it reads a job, writes its measures and ends."""

import json
import os
import pathlib
import pickle
import sys
from dataclasses import dataclass, replace
from typing import Any

from ...cosim import report
from ...cosim.queues import said, study
from ...cosim.queues.volumes import Volumes
from ...shared.clock import DAY_TICKS
from ...shared.fault import Fault
from ..names import Names
from .plans import Plan
from .running import Asked, lead_of

WARM, SEEDS = 300, (1, 2, 3)
"""Seconds at the beginning that aren't counted at least, and the seeds over which means are taken."""
NAMES = ("delay", "stops")
NICE = 5
"""Lights come first, measures second."""


@dataclass(frozen=True)
class Traffic:
    """The volumes of a street, and how many seconds of traffic are counted."""

    volumes: Volumes
    seconds: int


@dataclass(frozen=True)
class Job:
    """What is measured: volumes and names of the street, the scenario without traffic, the seconds that aren't counted
    and those that are."""

    volumes: Volumes
    names: Names
    scenario: dict[str, Any]
    warm: int
    seconds: int


def octets(program: str, job: Job) -> bytes:
    """Returns what the process is given."""
    return pickle.dumps((program, job))


def job_of(traffic: Traffic, plan: Plan, asked: Asked) -> Job:
    """Returns the measurement of a plan under the pattern and from the time that a page looks at."""
    lead = max(WARM, 60 * lead_of(plan, replace(asked, settled=True), list(plan.numbers)))
    start = (asked.time - 10 * lead) % DAY_TICKS
    more = {"clock": start} | ({"pattern": asked.pattern} if asked.pattern else {})
    scenario: dict[str, Any] = {
        "version": plan.street.scenario["version"], "rounds": lead + traffic.seconds, "ticks": 10,
        "cabinets": [it | more for it in plan.cabinets()],
    }  # fmt: skip
    if not asked.pattern:
        master = plan.street.scenario.get("master", {})
        scenario["master"] = {name: it for name, it in master.items() if name == "schedule"} | {"clock": start}
    return Job(traffic.volumes, plan.names, scenario, lead, traffic.seconds)


def measured(program: str, job: Job) -> dict[str, Any]:
    """Returns the measures of a plan: the mean delay in seconds and the stops of a vehicle, for the street and for each
    intersection; and of each the longest queue of any movement. `refused` says why there are none."""
    volumes = said.fitted(job.volumes, said.said_in(job.names))
    try:
        values = [one(program, volumes, job, seed) for seed in SEEDS]
    except Fault as fault:
        return {"refused": str(fault)}
    cabinets = []
    for at, row in enumerate(values[0]["cabinets"]):
        number = row["cabinet"]
        means = {name: mean([it["cabinets"][at][name] for it in values]) for name in NAMES}
        cabinets.append({"number": number, **means, "queue": mean([longest(it, number) for it in values])})
    cars: list[dict[str, Any]] = [next((it for it in value["kinds"] if it["kind"] == "car"), {}) for value in values]
    street = {name: mean([it.get(name) for it in cars]) for name in NAMES}
    queues = [it["queue"] for it in cabinets if it["queue"] is not None]
    return {"street": street | {"queue": max(queues, default=None)}, "cabinets": cabinets}


def one(program: str, volumes: Volumes, job: Job, seed: int) -> dict[str, Any]:
    """Returns the report of a run with a seed."""
    asked = study.Asked(job.warm + job.seconds, 10, seed, job.warm)
    ran = study.run(program, volumes, job.scenario, asked, lambda step: None)
    return report.collect(study.study_of(ran, pathlib.Path()), ran.signals.greens)


def longest(value: dict[str, Any], number: int) -> float | None:
    """Returns the longest queue of any movement of an intersection."""
    queues = [it["queue_greatest"] for it in value["movements"] if it["cabinet"] == number]
    return max((it for it in queues if it is not None), default=None)


def mean(values: list[float | None]) -> float | None:
    """Returns a mean, None if a value is missing."""
    known = [it for it in values if it is not None]
    return round(sum(known) / len(known), 2) if known and len(known) == len(values) else None


def main() -> None:
    """Reads a job from standard input, as `octets` gives it, and writes its measures to standard output."""
    os.nice(NICE)
    program, job = pickle.load(sys.stdin.buffer)
    json.dump(measured(program, job), sys.stdout)


if __name__ == "__main__":
    # the classes of a job are those of this module by its name
    from streettools.plan.edit import measuring

    measuring.main()
