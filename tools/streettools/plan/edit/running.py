"""What the program makes of a plan: the lights of its cabinets in a run, and the bands of their plan.

All times are ticks since midnight of the day on which the shown time begins, as the run's clock counts."""

import json
from dataclasses import dataclass, field
from typing import Any

from ...shared.bands import Spans, common, delays_of, read_bands
from ...shared.cells import value
from ...shared.clock import DAY_TICKS
from ...shared.program import ran
from ...shared.plans import plan as laid_plan
from ...shared.tables import Tables
from ..transition import change_to
from .plans import Plan

ROUND, MINUTE = 100, 600
"""The ticks of a round, and of a minute."""
SECONDS = 60.0
"""How long a run may take."""
MOST_LEAD = 45
"""The most minutes that a run begins before the shown time."""
USUAL_TRAVEL = 20.0
"""The seconds to the next intersection where the sheet doesn't say them."""
CALLS = ("all", "people", "sheet")
"""The calls of phases: a vehicle on each detector all the time; also persons, once in each minute; the events of the
sheet."""


@dataclass(frozen=True)
class Asked:
    """What is run: the intersection whose section it is, the pattern (0: by the schedule), the time of day in ticks at
    which the shown time begins, its minutes, whether the run begins earlier so that transitions are over, and the
    calls."""

    intersection: int
    pattern: int
    time: int
    minutes: int
    settled: bool
    calls: str


@dataclass
class Lights:
    """The lights of a phase, as spans by letter: G, Y, C of vehicles, W and F of persons."""

    spans: list[tuple[str, int, int]] = field(default_factory=list)
    letter: str = ""
    since: int = 0

    def shown(self, letter: str, tick: int, start: int) -> None:
        """Takes the letter that is shown from a tick on."""
        if letter != self.letter:
            if self.letter not in ("", "R", "D") and tick > start:
                self.spans.append((self.letter, max(self.since, start), tick))
            self.letter, self.since = letter, tick


def lead_of(plan: Plan, asked: Asked, group: list[int]) -> int:
    """Returns how many minutes a run begins before the shown time: as long as the slowest cabinet may need until it is
    on its offset."""
    if not asked.settled:
        return 0
    patterns = [asked.pattern] if asked.pattern else plan.patterns()
    ticks = [bound(plan, it, pattern) for it in group for pattern in patterns]
    return min(MOST_LEAD, 1 + -(-max(ticks, default=0) // MINUTE))


def bound(plan: Plan, number: int, pattern: int) -> int:
    """Returns within how many ticks a cabinet that starts is on the offset of a pattern."""
    tables = plan.of(number)
    if pattern not in tables.patterns():
        return 0
    change = change_to(tables, pattern, plan.street.scenario["cabinets"][number - 1])
    return change.ticks if change else MOST_LEAD * MINUTE


def scenario_of(plan: Plan, asked: Asked, group: list[int]) -> tuple[dict[str, Any], int]:
    """Returns the scenario of a run, and the ticks of its lead."""
    lead = lead_of(plan, asked, group)
    whole, minutes = plan.street.scenario, lead + asked.minutes
    start = (asked.time - lead * MINUTE) % DAY_TICKS
    cabinets = plan.cabinets()
    made: dict[str, Any] = {
        "version": whole["version"], "rounds": minutes * MINUTE // ROUND, "ticks": ROUND,
        "cabinets": [cabinets[number - 1] | {"clock": start} | ({"pattern": asked.pattern} if asked.pattern else {})
                     for number in group],
    }  # fmt: skip
    master = {name: it for name, it in whole.get("master", {}).items() if name in ("schedule", "retries")}
    if not asked.pattern:
        made["master"] = master | {"clock": start}
    made["inputs"] = list(inputs_of(plan, asked, group, made["rounds"], start))
    return made, lead * MINUTE


def inputs_of(plan: Plan, asked: Asked, group: list[int], rounds: int, start: int) -> list[dict[str, Any]]:
    """Returns the inputs of a run."""
    found: list[dict[str, Any]] = []
    if asked.calls == "sheet":
        return sheet_inputs(plan, group, rounds, start)
    for place, number in enumerate(group, 1):
        tables, partners = plan.of(number), plan.names.intersection(number).partners
        for phase in tables.enabled():
            if phase in partners:
                continue
            found.append({"round": 1, "cabinet": place, "veh": phase, "on": True})
            if asked.calls == "people" and value(tables, ("phase", phase, 2)):
                found += [{"round": it, "cabinet": place, "ped": phase} for it in range(1, rounds + 1, MINUTE // ROUND)]
    return sorted(found, key=lambda it: int(it["round"]))


def sheet_inputs(plan: Plan, group: list[int], rounds: int, start: int) -> list[dict[str, Any]]:
    """Returns the inputs of the sheet's events at their times of day, as far as the run has them."""
    scenario = plan.street.scenario
    begins = scenario.get("master", {}).get("clock", scenario["cabinets"][0].get("clock", 0))
    found = []
    for it in scenario.get("inputs", ()):
        tick = (begins + (it["round"] - 1) * scenario["ticks"] - start) % DAY_TICKS
        if it["cabinet"] in group and tick // ROUND < rounds:
            found.append(it | {"round": tick // ROUND + 1, "cabinet": group.index(it["cabinet"]) + 1})
    return sorted(found, key=lambda it: int(it["round"]))


def travels(plan: Plan, group: list[int]) -> list[int]:
    """Returns the ticks of travel from each intersection of a group to the next."""
    found = []
    for at, number in enumerate(group[:-1]):
        between = [plan.names.intersection(it).travel for it in range(number, group[at + 1])]
        found.append(round(10 * sum(USUAL_TRAVEL if it is None else it for it in between)))
    return found


def run(program: str, plan: Plan, asked: Asked) -> dict[str, Any]:
    """Returns what a page draws of a run of the program: the greens of both ways at each intersection, all lights of
    the chosen one, and the bands that the greens leave. If the program refuses the plan, its line is in `refused`."""
    group = plan.group(asked.intersection)
    scenario, lead = scenario_of(plan, asked, group)
    answer = ran(program, "run", given=json.dumps(scenario, separators=(",", ":")).encode(), seconds=SECONDS)
    if answer.status:
        return {"refused": answer.said}
    length = asked.minutes * MINUTE
    shown = Shown(plan, asked, group, lead, lead + length)
    shown.take(answer.out)
    return shown.result(asked.time, travels(plan, group))


class Shown:
    """Reads the lights from a trace: those of the coordinated phases of all cabinets, and all of the chosen one."""

    def __init__(self, plan: Plan, asked: Asked, group: list[int], start: int, end: int) -> None:
        self.start, self.end, self.group = start, end, group
        self.chosen = group.index(asked.intersection)
        self.pairs = [pair_of(plan.of(number), asked.pattern) for number in group]
        self.lights = [{phase: Lights() for phase in pair} for pair in self.pairs]
        self.lights[self.chosen] = {phase: Lights() for phase in plan.of(asked.intersection).enabled()}
        self.walks = {phase: Lights() for phase in plan.of(asked.intersection).enabled()}
        self.on: list[int | None] = [None for _ in group]

    def take(self, trace: bytes) -> None:
        """Reads the lines of a trace."""
        for line in trace.split(b"\n"):
            if line[:2] == b"F ":
                words = line.decode().split(" ")
                at, tick = int(words[1]) - 1, int(words[2])
                for phase, it in self.lights[at].items():
                    it.shown(words[3][phase - 1], tick, self.start)
                if at == self.chosen:
                    for phase, it in self.walks.items():
                        it.shown(words[4][phase - 1], tick, self.start)
                is_on = words[5][:1] == "C" and words[6] == words[7]
                self.on[at] = (tick if self.on[at] is None else self.on[at]) if is_on else None
        for lights in (*self.lights, self.walks):
            for it in lights.values():
                it.shown("", self.end, self.start)

    def result(self, time: int, travel: list[int]) -> dict[str, Any]:
        """Returns what a page draws."""
        ways = [[self.greens(at, way) for at in range(len(self.group))] for way in (0, 1)]
        bands = [self.bands(spans, delays) for spans, delays in zip(ways, delays_of(travel), strict=True)]
        last = max(self.start + 1, self.end - sum(travel))
        met = [sum(max(0, min(high, last) - low) for low, high in it) for it in bands]
        share = [round(it / (last - self.start), 4) for it in met]
        shift = time - self.start
        return {
            "start": time, "end": time + self.end - self.start, "numbers": self.group,
            "greens": [[moved(it, shift) for it in way] for way in ways],
            "bands": [moved(it, shift) for it in bands], "share": share,
            "on": [None if it is None else it + shift for it in self.on],
            "lights": {phase: [(a, b + shift, c + shift) for a, b, c in it.spans]
                       for phase, it in self.lights[self.chosen].items()},
            "walks": {phase: [(a, b + shift, c + shift) for a, b, c in it.spans] for phase, it in self.walks.items()},
        }  # fmt: skip

    def greens(self, at: int, way: int) -> Spans:
        """Returns the greens of a way at a cabinet."""
        pair = self.pairs[at]
        if not pair:
            return []
        return [(low, high) for letter, low, high in self.lights[at][pair[way]].spans if letter == "G"]

    def bands(self, greens: list[Spans], delays: list[int]) -> Spans:
        """Returns the spans of time at which a vehicle may pass its first cabinet so as to meet green at each one."""
        if len(greens) < 2:
            return []
        spans: Spans = [(self.start, self.end)]
        for it, delay in zip(greens, delays, strict=True):
            spans = common(spans, [(low - delay, high - delay) for low, high in it])
        return spans


def moved(spans: Spans, by: int) -> Spans:
    """Returns spans later by some ticks."""
    return [(low + by, high + by) for low, high in spans]


def pair_of(tables: Tables, pattern: int) -> tuple[int, ...]:
    """Returns the coordinated phases of a pattern, of ring 1 and of ring 2; of the first pattern where none is
    named."""
    pattern = pattern or next(iter(tables.patterns()), 0)
    try:
        laid = laid_plan(tables, pattern) if pattern in tables.patterns() else None
    except (KeyError, ValueError, TypeError):
        return ()
    return laid.coordinated if laid else ()


def bands(program: str, plan: Plan, asked: Asked) -> dict[str, Any]:
    """Returns the bands of the plan as the program computes them: the start in the cycle and the width of each way, in
    ticks, None if there isn't one. `refused` has the program's line if it can't compute them."""
    group = plan.group(asked.intersection)
    if len(group) < 2 or not asked.pattern:
        return {"refused": "bands need a pattern, and two intersections of one section"}
    cabinets = plan.cabinets()
    scenario = {"version": plan.street.scenario["version"], "rounds": 1, "ticks": ROUND,
                "cabinets": [cabinets[number - 1] for number in group]}  # fmt: skip
    section = plan.section(asked.intersection)
    question = {"scenario": scenario, "section": section, "pattern": asked.pattern, "travel": travels(plan, group)}
    answer = ran(program, "band", given=json.dumps(question, separators=(",", ":")).encode(), seconds=SECONDS)
    found = read_bands(answer.out.decode(errors="replace")) if answer.status == 0 else None
    if found is None:
        return {"refused": answer.said or "the program's bands can't be read"}
    return {"bands": [None if it is None else list(it) for it in found]}
