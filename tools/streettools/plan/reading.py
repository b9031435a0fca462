"""A sheet, as the tables of TOML or of a workbook, as a scenario with its names; or as a field file, where it has
detectors."""

import json
from collections.abc import Callable
from dataclasses import dataclass, field
from typing import Any

from ..shared.given import Defect, Given, Unreadable, Wrong
from . import days, intersection, names, readers
from .event_times import Timed
from .fields import is_number, one_line
from .findings import Finding, warn

TOP = (
    "title", "units", "run", "master", "schedule", "day_plan", "sections", "intersection", "events", "respond",
)  # fmt: skip
RUN = {"version": (1, 2), "rounds": (1, 86_400), "ticks": (1, 600)}
USUAL_RUN = {"version": 1, "rounds": 600, "ticks": 10}
"""Where a sheet doesn't say how long its street is run: ten minutes, in rounds of a second."""
EVERY = ("poll_every", "clock_every", "pattern_every")
LISTS = ("inputs", "loads", "priority", "frames", "faults")


@dataclass
class Street:
    """The result of a sheet: a scenario, the names, what was entered for it, and what only a field file can hold."""

    scenario: dict[str, Any]
    names: names.Names
    notes: list[str] = field(default_factory=list)
    bank: list[dict] = field(default_factory=list)
    pulses: list | None = None
    respond: dict[str, Any] | None = None
    doubts: list[Finding] = field(default_factory=list)
    numbers: set[int] | None = None
    """The places of the schedule's entries whose time is written as a number; None if the schedule isn't from a
    sheet."""
    day_plans: list[days.DayPlan] = field(default_factory=list)

    def on(self, plan: days.DayPlan) -> None:
        """Puts the schedule of a day plan into the scenario."""
        self.scenario.setdefault("master", {})["schedule"] = plan.schedule

    def field_file(self) -> dict[str, Any]:
        """Returns the field file around the scenario."""
        found = {"scenario": self.scenario, "bank": self.bank}
        found |= {name: it for name, it in (("pulses", self.pulses), ("respond", self.respond)) if it is not None}
        return found

    def is_field(self) -> bool:
        """Tells whether it has anything that a scenario can't hold."""
        return bool(self.bank) or self.pulses is not None or self.respond is not None


def read_run(it: Given, drifts: bool) -> dict[str, Any]:
    """Returns the head of the scenario: how long it is run, and the community."""
    it.allow((*RUN, "community"))
    found = {name: it.read(name, readers.number(*limits), USUAL_RUN[name]) for name, limits in RUN.items()}
    if drifts and "version" not in it.table:
        found["version"] = 2
    community = it.read("community", readers.text)
    return found if community is None else found | {"community": community}


def read_master(it: Given, schedule: list[dict] | None) -> dict[str, Any] | None:
    """Returns the master, None if the sheet says nothing of it."""
    it.allow(("clock", *EVERY, "retries"))
    found: dict[str, Any] = {}
    clock = it.read("clock", readers.day_ticks)
    if clock is not None:
        found["clock"] = clock
    for name, limits in (*((name, (0, 86_400)) for name in EVERY), ("retries", (1, 10))):
        said = it.read(name, readers.number(*limits))
        if said is not None:
            found[name] = said
    if schedule is not None:
        found["schedule"] = schedule
    return found or None


def read_schedule(top: Given) -> list[dict] | None:
    """Returns the schedule of patterns by the time of day."""
    entries = []
    for _, it in top.tables("schedule"):
        it.allow(("at", "section", "pattern"))
        for name in ("at", "pattern"):
            if name not in it.table:
                it.fault("is missing", name)
        entries.append({
            "second": it.read("at", readers.day_seconds, 0), "section": it.read("section", readers.number(1, 8), 1),
            "pattern": it.read("pattern", readers.command, 0),
        })  # fmt: skip
    return entries if "schedule" in top.table else None


def rounds_of(ticks: int) -> Callable[[object], int]:
    """Returns a reader of a time in seconds, which gives a number of rounds."""

    def read(said: object) -> int:
        found = readers.measure(said) * 10 / ticks
        if abs(found - round(found)) > 1e-6:
            raise Wrong(f"{said:g} s: detectors are timed in whole rounds, here of {ticks / 10:g} s")
        return round(found)

    return read


def read_detectors(it: Given, cabinet: int, ticks: int, found: names.Intersection) -> list[dict]:
    """Returns the detectors of an intersection as a bank has them."""
    bank = []
    for number, row in it.numbered("detector", 64):
        row.allow(("name", "phase", "delay", "extend", "no_activity", "max_presence", "erratic"))
        if "phase" not in row.table:
            row.fault("say which phase it calls", "phase")
        times = {
            name: row.read(name, rounds_of(ticks), 0) for name in ("delay", "extend", "no_activity", "max_presence")
        }
        bank.append({
            "cabinet": cabinet, "detector": number, "phase": row.read("phase", readers.number(1, 16), 1), **times,
            "erratic": row.read("erratic", readers.number(0, 255), 0),
        })  # fmt: skip
        called = row.read("name", one_line, "")
        if called:
            found.detectors[number] = called
    return bank


def read_units(said: object) -> str:
    """Returns the units of speeds and lengths."""
    if said not in names.UNITS:
        raise Wrong(f'{said!r} is not a system of units: write "us" for mph and feet, "metric" for km/h and metres')
    return str(said)


def read_names(top: Given) -> names.Names:
    """Returns the names at the top of a sheet."""
    sections = top.below("sections")
    sections.allow(map(str, range(1, 9)))
    called = {number: sections.read(str(number), one_line) for number in range(1, 9)}
    return names.Names(
        title=top.read("title", one_line, ""), units=top.read("units", read_units, "us"),
        sections={number: name for number, name in called.items() if name},
    )  # fmt: skip


def plain(said: object) -> Any:
    """Returns a value that JSON can have."""
    try:
        json.dumps(said, allow_nan=False)
    except (TypeError, ValueError):
        raise Wrong("expected numbers, texts, true, false, lists and tables only") from None
    return said


def kept_list(said: object) -> list:
    """Returns a list, whose times are still times."""
    if not isinstance(said, list):
        raise Wrong("has to be a list")
    plain([{**it, "at": 0} if isinstance(it, dict) else it for it in said])
    return said


def listed(said: object) -> list:
    """Returns a list that JSON can have."""
    if not isinstance(said, list):
        raise Wrong("has to be a list")
    return plain(said)


def respond_of(top: Given) -> dict[str, Any] | None:
    """Returns by what rule patterns follow the traffic, as a field file has it."""
    top.below("respond").allow(("period", "sections"))
    return top.read("respond", plain)


def read_events(top: Given, scenario: dict[str, Any], names: list[str]) -> list | None:
    """Reads what arrives round by round, which a sheet has in the form of a scenario, or with times of day and names of
    intersections; returns the pulses of detectors."""
    it = top.below("events")
    it.allow((*LISTS, "pulses"))
    timed = Timed(scenario, names)
    for name in LISTS:
        said = it.read(name, kept_list)
        if said is not None:
            scenario[name] = plain(timed.items(it, name, said))
    return it.read("pulses", listed)


def read_days(top: Given, street: Street, schedule: list[dict] | None) -> None:
    """Reads the day plans, of which a scenario has one: the first if no date is given."""
    street.day_plans = days.read(top, read_schedule)
    if street.day_plans and schedule is not None:
        top.fault("day plans have schedules of their own, so this one holds on no day", "schedule")
    if street.day_plans:
        street.on(street.day_plans[0])
        told = f"the schedule is that of day plan {street.day_plans[0].name!r}"
        street.notes.append(f"{told}: `./arterial plan day` takes that of a date")


def read_sheet(sheet: dict[str, Any]) -> tuple[Street, list[Defect]]:
    """Returns the result of a sheet, and all faults that were found in it."""
    top = Given(sheet, faults=[])
    top.allow(TOP, intersection.HOMES)
    found = read_names(top)
    rows = list(top.tables("intersection"))
    if not rows:
        top.fault("a sheet needs at least one [[intersection]]")
    drifts = any("gain" in it.table or "lose" in it.table for _, it in rows)
    scenario = read_run(top.below("run"), drifts)
    street = Street(scenario, found)
    scenario["cabinets"] = []
    for number, it in rows:
        called = it.table.get("name")
        it.place = f"intersection {number}" + (f" ({called})" if called else "")
        read, cabinet = intersection.read(it)
        scenario["cabinets"].append(cabinet)
        found.intersections.append(read.names)
        street.notes += [f"{it.place}: {note}" for note in read.notes]
        street.doubts += [warn(found.called(number), words, is_cause=True) for words in read.doubts]
        street.bank += read_detectors(it, number, scenario["ticks"], read.names)
    schedule = read_schedule(top)
    master = read_master(top.below("master"), schedule)
    if master is not None:
        scenario["master"] = master
    street.numbers = {place - 1 for place, it in top.tables("schedule") if is_number(it.table.get("at"))}
    read_days(top, street, schedule)
    street.pulses = read_events(top, scenario, [it.name for it in found.intersections])
    street.respond = respond_of(top)
    return street, top.faults or []


def street_of(sheet: dict[str, Any]) -> Street:
    """Returns what a sheet means; raises Unreadable if it has faults."""
    street, faults = read_sheet(sheet)
    if faults:
        raise Unreadable(faults)
    return street
