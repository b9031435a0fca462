"""A run of the model of queues: volumes, a scenario and a seed through a session, and what is recorded of it."""

import json
import pathlib
from collections.abc import Callable
from dataclasses import dataclass
from typing import Any

from ...shared.fault import Fault
from . import checks
from .demand import Demand, demand_of
from .session import Cabinets, scenario_of
from .signals import Signals
from .street import Acts, Steps, Street
from .volumes import Flow, Volumes
from .yielding import gives_way
from ..records import Kind, Movement, Passage, Study, Trip, queue_samples

STOPPED = 2.0
"""A vehicle that waits as long as this has stopped; one that waits less has slowed down."""
MOST_TICKS, MOST_ROUNDS = 55_296_000, 86_400


@dataclass(frozen=True)
class Asked:
    """The settings of a run: how many seconds, the ticks of a step, the seed, what is left out at the beginning,
    whether the scenario's own inputs are kept, whether the trace is kept."""

    seconds: float
    step: int = 10
    seed: int = 1
    warm: float = 0.0
    keeps_inputs: bool = False
    keeps_trace: bool = False


@dataclass
class Ran:
    """The result of a run: the street, its signals, the traffic, and the trace if it was kept."""

    volumes: Volumes
    asked: Asked
    street: Street
    signals: Signals
    demand: Demand
    cabinets: int
    trace: bytes | None


def seconds_of(scenario: dict[str, Any], given: float | None) -> float:
    """Returns how long a run is: as long as is asked for, else as the scenario says."""
    return given if given is not None else scenario["rounds"] * scenario["ticks"] / 10


def read_scenario(text: bytes, name: str) -> dict[str, Any]:
    """Returns a scenario's value, which has to have what a session is made from."""
    try:
        scenario = json.loads(text)
        if not isinstance(scenario["cabinets"], list) or not scenario["cabinets"]:
            raise ValueError
        scenario["rounds"] * scenario["ticks"] * 1.0
    except (ValueError, KeyError, TypeError, RecursionError):
        raise Fault(f"{name} is not a valid scenario (./arterial run shows why)") from None
    return scenario


def session_of(scenario: dict[str, Any], asked: Asked) -> tuple[dict[str, Any], Steps]:
    """Returns the scenario of the session, and its steps: as many whole steps as go into whole rounds."""
    ticks = scenario["ticks"]
    rounds = -(-round(asked.seconds * 10) // ticks)
    if rounds > MOST_ROUNDS or rounds * ticks * len(scenario["cabinets"]) > MOST_TICKS:
        raise Fault(f"{asked.seconds:g} s are more than a scenario with rounds of {ticks} ticks may have")
    return scenario_of(scenario, rounds, asked.keeps_inputs), Steps(round(asked.seconds * 10) // asked.step, asked.step)


Advance = Callable[[int], None]
"""Is called with each step that is done."""


Makes = Callable[[Street], Acts]
"""Makes a policy of a street."""


def run(
    program: str,
    volumes: Volumes,
    scenario: dict[str, Any],
    asked: Asked,
    advance: Advance,
    makes: Makes | None = None,
) -> Ran:
    """Runs the street, with a policy if one is to be made."""
    checks.check(volumes, scenario, asked.seconds)
    given, steps = session_of(scenario, asked)
    demand = demand_of(volumes, asked.seed, checks.starts_at(scenario), asked.seconds)
    street, signals = Street(volumes, demand, steps), Signals(len(scenario["cabinets"]))
    with Cabinets(program, given, asked.keeps_trace) as cabinets:
        street.run(cabinets, signals, advance, makes(street) if makes else None)
        cabinets.close()
    signals.close(steps.seconds)
    trace = cabinets.trace() if asked.keeps_trace else None
    return Ran(volumes, asked, street, signals, demand, len(scenario["cabinets"]), trace)


def movements_of(volumes: Volumes) -> list[Movement]:
    """Returns the movements of vehicles and of persons."""
    crossed = {(it.cabinet, it.phase) for it in volumes.crossings}
    return [movement_of(it) for it in volumes.flows] + [
        Movement(cabinet, f"ped {phase}", phase) for cabinet, phase in sorted(crossed)
    ]


def movement_of(flow: Flow) -> Movement:
    """Returns the movement of a flow; if it gives way, the capacity of its gaps isn't known beforehand."""
    rates = flow.saturation
    service = None if gives_way(flow) else (rates.flow * flow.lanes, rates.lost, rates.yellow)
    parents = (flow.phase, *(it for it in flow.permitted if it != flow.phase)) if gives_way(flow) else ()
    return Movement(flow.cabinet, flow.name, flow.phase, parents, service, flow.storage)


def vehicle_trips(ran: Ran) -> list[Trip]:
    """Returns the trips of all vehicles."""
    flows, seconds = ran.volumes.flows, ran.street.steps.seconds
    spans = [ran.signals.greens[it.cabinet, it.phase] for it in flows]
    found = []
    for number, (vehicle, told) in enumerate(zip(ran.demand.vehicles, ran.street.passages)):
        passages, lost, stops = [], 0.0, 0
        for place, (arrived, released) in zip(vehicle.way.flows, told):
            it, delay = flows[place], released - arrived
            stopped = delay >= STOPPED
            lost += delay
            stops += stopped
            passages.append(
                Passage(it.cabinet, it.name, it.phase, arrived, released, delay, stopped, spans[place].holds(arrived))
            )
        is_there = len(told) == len(vehicle.way.flows)
        if not is_there:
            reaches = told[-1][1] + vehicle.travels[len(told) - 1] if told else vehicle.entry
            lost += max(0.0, seconds - reaches)
        waits = None
        if not is_there and reaches < seconds:
            it = flows[vehicle.way.flows[len(told)]]
            waits = it.cabinet, it.name, reaches
        arrive = told[-1][1] if is_there else None
        name, route = str(number + 1), vehicle.way.route
        found.append(Trip(name, route, Kind.CAR, tuple(passages), vehicle.entry, arrive, lost, stops, waits))
    return found


def person_trips(ran: Ran) -> list[Trip]:
    """Returns the trips of all persons: each waits until walk is shown."""
    found = []
    for number, person in enumerate(ran.demand.persons, 1):
        it = ran.volumes.crossings[person.crossing]
        name, walks = f"ped {it.phase}", ran.signals.walks[it.cabinet, it.phase]
        at = walks.first(person.at)
        delay = (ran.street.steps.seconds if at is None else at) - person.at
        passages: tuple[Passage, ...] = ()
        if at is not None:
            passages = (Passage(it.cabinet, name, it.phase, person.at, at, delay, delay > 0, delay == 0),)
        route = f"{name} {it.cabinet}"
        found.append(Trip(f"person {number}", route, Kind.PERSON, passages, person.at, at, delay, int(delay > 0)))
    return found


def study_of(ran: Ran, trace: pathlib.Path) -> Study:
    """Returns what was recorded of a run."""
    vehicles, movements = vehicle_trips(ran), movements_of(ran.volumes)
    return Study(
        cabinets=ran.cabinets,
        movements=movements,
        trace=trace,
        trips=vehicles + person_trips(ran),
        queues=queue_samples(vehicles, movements),
        seconds=ran.street.steps.seconds,
        warm=ran.asked.warm,
        title=ran.volumes.title,
    )
