"""A field file: detectors and their pulses, and how the patterns of sections follow the traffic; the scenario that
comes of it.

docs/FIELD-FILE.md.
"""

from collections import defaultdict
from dataclasses import dataclass
from typing import Any

from model.bank import BankItem, Detected, detected
from model.json_text import compact
from model.levels import Rule, Step, entries
from model.scenario import Scenario
from model.scenario_read import MOST_BYTES, content, read_value
from model.shapes import Named, Shape, field_fault, fields, flag, limit_fault, list_of, names_known, told, whole
from model.words import DAY

MOST_INPUTS, MOST_ENTRIES = 1_000_000, 1000


@dataclass(frozen=True)
class Pulse:
    """A detector goes on or off."""

    round: int
    cabinet: int
    detector: int
    on: bool


@dataclass(frozen=True)
class Respond:
    """How long a period is, in rounds, and the rules of sections."""

    period: int
    sections: list[Rule]


@dataclass(frozen=True)
class FieldFile:
    """All that a field file says."""

    scenario: Scenario
    value: dict[str, Any]
    bank: list[BankItem]
    pulses: list[Pulse]
    respond: Respond | None


STEP = [Named("up", whole(1, 1_000_000)), Named("down", whole(1, 1_000_000)), Named("pattern", whole(0, 255))]


def made(kind: type, names: list[Named]) -> Shape:
    """Returns the shape of an object whose names are the fields of a kind."""
    return lambda value, path: kind(**fields(value, path, names))


RULE = [Named("section", whole(1, 8)), Named("base", whole(0, 255)), Named("steps", list_of(made(Step, STEP), 0, 8))]
RESPOND = [Named("period", whole(1, 3600)), Named("sections", list_of(made(Rule, RULE), 1, 8))]


def bank_item(cabinets: int) -> list[Named]:
    """Returns the names of a detector of the bank."""
    return [
        Named("cabinet", whole(1, cabinets)),
        Named("detector", whole(1, 64)),
        Named("phase", whole(1, 16)),
        Named("delay", whole(0, 255)),
        Named("extend", whole(0, 255)),
        Named("no_activity", whole(0, 65_535)),
        Named("max_presence", whole(0, 65_535)),
        Named("erratic", whole(0, 255)),
    ]


def pulse(scenario: Scenario) -> list[Named]:
    """Returns the names of a pulse."""
    cabinets = len(scenario.cabinets)
    return [
        Named("round", whole(1, scenario.rounds)),
        Named("cabinet", whole(1, cabinets)),
        Named("detector", whole(1, 64)),
        Named("on", flag),
    ]


TOP = ["scenario", "bank", "pulses", "respond"]


def read_field(value: Any) -> FieldFile:
    """Returns what a value says that is a field file; else its first fault is raised."""
    known = names_known(value, ".", TOP)
    scenario = told(known, ".", Named("scenario", content))
    bank = list_of(made(BankItem, bank_item(len(scenario.cabinets))), 0, 512)
    pulses = list_of(made(Pulse, pulse(scenario)), 0, 1_000_000)
    file = FieldFile(
        scenario,
        known["scenario"],
        told(known, ".", Named("bank", bank, [])),
        told(known, ".", Named("pulses", pulses, [])),
        told(known, ".", Named("respond", made(Respond, RESPOND), None)),
    )
    check_bank(file)
    if file.respond is not None:
        check_rules(file.respond)
        check_time(file, file.respond)
    return file


def check_bank(file: FieldFile) -> None:
    """Raises the first fault that lies across detectors and pulses."""
    known: set[tuple[int, int]] = set()
    for place, item in enumerate(file.bank):
        if (item.cabinet, item.detector) in known:
            raise field_fault(f"bank[{place}]")
        known.add((item.cabinet, item.detector))
    for place, it in enumerate(file.pulses):
        if (it.cabinet, it.detector) not in known:
            raise field_fault(f"pulses[{place}]")


def check_rules(respond: Respond) -> None:
    """Raises the first fault that lies across the rules of sections and their steps."""
    sections: set[int] = set()
    for place, rule in enumerate(respond.sections):
        if rule.section in sections:
            raise field_fault(f"respond.sections[{place}]")
        sections.add(rule.section)
    for place, rule in enumerate(respond.sections):
        before = Step(0, 0, 0)
        for number, step in enumerate(rule.steps):
            if step.down > step.up or step.up <= before.up or step.down <= before.down:
                raise limit_fault(f"respond.sections[{place}].steps[{number}]")
            before = step


def check_time(file: FieldFile, respond: Respond) -> None:
    """Raises the first fault of the master's schedule and of the times of periods."""
    scenario = file.scenario
    if scenario.master.schedule:
        raise field_fault("scenario.master.schedule")
    if scenario.master.clock % 10 or respond.period * scenario.ticks % 10:
        raise limit_fault("respond.period")
    if scenario.rounds * scenario.ticks > DAY:
        raise limit_fault("scenario.rounds")


def detected_all(file: FieldFile) -> dict[BankItem, Detected]:
    """Returns what each detector does in each round."""
    given: dict[tuple[int, int], list[list[bool]]] = defaultdict(lambda: [[] for _ in range(file.scenario.rounds)])
    for it in file.pulses:
        given[it.cabinet, it.detector][it.round - 1].append(it.on)
    return {item: detected(item, given[item.cabinet, item.detector]) for item in file.bank}


def inputs_of(file: FieldFile, seen: dict[BankItem, Detected]) -> list[dict[str, Any]]:
    """Returns each change of a call of a phase from round to round, by round, cabinet and phase."""
    phases = sorted({(item.cabinet, item.phase) for item in file.bank})
    callers = {at: [seen[item].calls for item in file.bank if (item.cabinet, item.phase) == at] for at in phases}
    inputs = []
    for number in range(1, file.scenario.rounds + 1):
        for cabinet, p in phases:
            was, now = (any(calls[at] for calls in callers[cabinet, p]) for at in (number - 1, number))
            if now != was:
                inputs.append({"round": number, "cabinet": cabinet, "veh": p, "on": now})
    return inputs


def result(file: FieldFile) -> dict[str, Any]:
    """Returns the scenario that a field file comes to, as a value."""
    seen = detected_all(file)
    inputs = file.value.get("inputs", []) + inputs_of(file, seen)
    if len(inputs) > MOST_INPUTS:
        raise limit_fault("pulses")
    value = {**file.value, "inputs": inputs}
    if file.respond is None:
        return value
    edges = {item: it.edges for item, it in seen.items()}
    schedule = entries(file.scenario, file.respond.period, file.respond.sections, edges)
    if len(schedule) > MOST_ENTRIES:
        raise limit_fault("respond")
    return {**value, "master": {**file.value.get("master", {}), "schedule": schedule}}


def respond(data: bytes) -> bytes:
    """Returns the compact text of the scenario that a field file comes to."""
    if len(data) > MOST_BYTES:
        raise limit_fault(".")
    text = compact(result(read_field(read_value(data))))
    if len(text) + 1 > MOST_BYTES:
        raise limit_fault("scenario")
    return text
