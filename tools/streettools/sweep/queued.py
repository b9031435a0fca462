"""Traffic that waits in queues under a study's variants: its table `volumes`, a run of the model of queues, and its
measures. docs/QUEUES.md says what the model does."""

import json
import time
from collections.abc import Callable
from dataclasses import dataclass, replace
from pathlib import Path
from typing import Any

from ..cosim import movements
from ..cosim.queues import study as queue_study
from ..cosim.movements import Count
from ..cosim.queues.volumes import Volumes, volumes_of
from ..shared.fault import Fault
from ..shared.given import NUMBER, Given, toml_of

STEPS = (1, 2, 5, 10)
"""The ticks that a round may have: a round is a step."""


@dataclass(frozen=True)
class Queued:
    """The traffic of a variant: the volumes, and the seed that generates from them."""

    volumes: Volumes
    seed: int


def check_volumes(given: Given, fetch: Callable[[str], bytes]) -> None:
    """Refuses a table `volumes` that can't be read."""
    given.within("factor", NUMBER, 0, 1000)
    read(given.need("file", str), fetch)
    given.end()


def read(name: str, fetch: Callable[[str], bytes]) -> Volumes:
    """Reads a file of volumes."""
    return volumes_of(toml_of(fetch(name), name))


def queued_of(table: dict[str, Any], seed: int | None, fetch: Callable[[str], bytes]) -> Queued:
    """Returns the traffic of a variant; the table's factor multiplies that of the file."""
    volumes = read(table["file"], fetch)
    return Queued(replace(volumes, factor=volumes.factor * table.get("factor", 1)), 1 if seed is None else seed)


@dataclass(frozen=True)
class Terms:
    """How a variant is run: the ticks at the beginning that aren't counted, the time of the clock at which it has to be
    done, whether its trace is kept."""

    start: int
    until: float
    keeps_trace: bool


def run(program: Path, scenario: dict[str, Any], queued: Queued, terms: Terms) -> queue_study.Ran:
    """Runs a variant; TimeoutError if it isn't done in time."""
    seconds, step = queue_study.seconds_of(scenario, None), scenario["ticks"]
    if step not in STEPS:
        raise Fault(f"volumes go with rounds of {', '.join(map(str, STEPS))} ticks, and the scenario has {step}")

    def advance(_: int) -> None:
        if time.monotonic() > terms.until:
            raise TimeoutError

    asked = queue_study.Asked(seconds, step, queued.seed, terms.start / 10, keeps_trace=terms.keeps_trace)
    return queue_study.run(str(program), queued.volumes, scenario, asked, advance)


def counted(ran: queue_study.Ran) -> dict[tuple[int, int], Count]:
    """Returns what is counted of the vehicles of each cabinet and phase."""
    study = queue_study.study_of(ran, Path())
    found: dict[tuple[int, int], Count] = {}
    counts = movements.counts(study, ran.signals.greens)
    for it in ran.volumes.flows:
        found.setdefault((it.cabinet, it.phase), Count()).add(counts[it.cabinet, it.name])
    return found


def scenario_of(trace: bytes) -> dict[str, Any]:
    """Returns the scenario of a trace: the variant's, with what the session brought."""
    found: dict[str, Any] = json.loads(trace[2 : trace.index(b"\n")])
    return found
