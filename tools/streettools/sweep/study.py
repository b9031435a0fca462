"""A study, as its TOML file says it: the scenario at the base, what varies, what is drawn, what is measured."""

import enum
import json
from collections.abc import Callable
from dataclasses import dataclass, field
from typing import Any

from ..cosim.queues import said
from ..shared.fault import Fault
from ..shared.given import NUMBER, Given
from . import choice, drawn, queued
from .choice import Column
from .files import facts_name
from .measures import Scope
from .own import Own, own_of
from .targets import Put, put_of
from .values import Kind, Option, Values, values_of

STUDY = "study"
"""What a study's file is called in messages."""

Fetch = Callable[[str], bytes]
"""Gives the content of a file that a study names."""


class BaseKind(enum.StrEnum):
    """Where the scenario at the base comes from."""

    SCENARIO = "scenario"
    FIELD = "field"
    GENERATE = "generate"


@dataclass(frozen=True)
class Base:
    """The scenario at the base: a file's name, or the words of `generate`."""

    kind: BaseKind
    file: str | None = None
    words: dict[str, Any] = field(default_factory=dict)


@dataclass(frozen=True)
class Parameter:
    """What varies: its name, its values, and where they are put."""

    name: str
    values: Values
    puts: tuple[Put, ...]


@dataclass(frozen=True)
class Street:
    """The way along which bands are asked for: a section, a pattern, and the ticks from each cabinet to the next."""

    section: int
    pattern: int
    travel: tuple[int, ...]


@dataclass(frozen=True)
class Study:
    """A whole study."""

    title: str
    base: Base
    parameters: tuple[Parameter, ...]
    seeds: tuple[int, ...]
    samples: int
    sample_seed: int
    start: int
    columns: tuple[Column, ...]
    own: tuple[Own, ...]
    tables: dict[str, dict[str, Any]]
    """The tables `traffic`, `line`, `street` and `volumes`, as far as they are there."""

    def is_drawn(self) -> bool:
        """Tells whether random samples are drawn."""
        return any(it.values.kind is Kind.RANDOM for it in self.parameters)


def base_of(given: Given, fetch: Fetch) -> Base:
    """Reads the base."""
    kind = BaseKind(given.only(tuple(it.value for it in BaseKind)))
    if kind is not BaseKind.GENERATE:
        name = given.need(kind.value, str)
        fetch(name)
        return Base(kind, name)
    words = Given(given.need("generate", dict), given.file, "generate")
    found = {name: words.need(name, int) for name in ("cabinets", "rounds")} | {"seed": words.take("seed", int, 1)}
    words.end()
    return Base(kind, words=found)


def option_of(given: Given, fetch: Fetch) -> Option:
    """Reads a named alternative."""
    puts = given.each("put", lambda it: (put_of(it), it.need("value", object)))
    scenario = given.take("scenario", str)
    if scenario is not None:
        fetch(scenario)
    return Option(given.need("name", str), tuple(puts), scenario)


def parameter_of(given: Given, fetch: Fetch) -> Parameter:
    """Reads a parameter."""
    name = given.need("name", str)
    kind = Kind(given.only(tuple(it.value for it in Kind)))
    options = given.each("option", lambda it: option_of(it, fetch))
    if len({it.name for it in options}) < len(options):
        raise given.refuse("option", "has two of one name")
    values = values_of(given, name, kind, options)
    puts: tuple[Put, ...] = ()
    if kind is Kind.OPTION:
        pass
    elif "put" in given.table:
        puts = given.each("put", put_of)
    else:
        puts = (put_of(given),)
    return Parameter(name, values, puts)


def seeds_of(given: Given) -> tuple[int, ...]:
    """Reads the seeds: how many, from 1 on, or a list of them."""
    seeds = given.take("seeds", (int, list), [])
    if isinstance(seeds, int):
        if not 1 <= seeds <= 10**6:
            raise given.refuse("seeds", f"is {seeds}, and has to be 1 to 1,000,000")
        return tuple(range(1, seeds + 1))
    if not all(isinstance(it, int) and 0 <= it < 2**32 for it in seeds):
        raise given.refuse("seeds", "has to be a number, or a list of numbers from 0 to 4,294,967,295")
    if twice := next((it for it in seeds if seeds.count(it) > 1), None):
        raise given.refuse("seeds", f"has {twice} twice: equal seeds give equal runs")
    return tuple(seeds)


def street_of(table: dict[str, Any]) -> Street:
    """Reads the table `street`; times of travel are in seconds."""
    given = Given(table, STUDY, "street")
    travel = given.need("travel", list)
    if not all(isinstance(it, NUMBER) and 0 <= it <= 86_400 for it in travel):
        raise given.refuse("travel", "has to be a list of seconds")
    found = Street(
        given.within("section", int, 1, 8, 1),
        given.within("pattern", int, 1, 48, 1),
        tuple(round(10 * it) for it in travel),
    )
    given.end()
    return found


def tables_of(given: Given, fetch: Fetch) -> dict[str, dict[str, Any]]:
    """Reads the tables beside the scenario, as they are."""
    names = ("traffic", "line", "street", "volumes")
    found = {name: table for name in names if (table := given.take(name, dict)) is not None}
    drawn.check_traffic(given.below("traffic"))
    drawn.check_line(given.below("line"))
    if "street" in found:
        street_of(found["street"])
    if "volumes" in found:
        queued.check_volumes(given.below("volumes"), fetch)
        if found.get("traffic", {}).get("flow"):
            raise Fault("study: traffic.flow and volumes exclude each other: each defines what the detectors see")
    return found


def with_travel(document: dict[str, Any], fetch: Fetch) -> dict[str, Any]:
    """Returns the study with the times of travel of its timing sheet, if its table `street` has none."""
    file, table = document.get("scenario"), document.get("street")
    name = facts_name(file) if isinstance(file, str) else None
    if name is None or not isinstance(table, dict) or "travel" in table:
        return document
    try:
        travel = said.read(json.loads(fetch(name))).travel[:-1]
    except ValueError:  # it isn't a sheet, which is said where it is read
        return document
    return document if None in travel else document | {"street": table | {"travel": list(travel)}}


def study_of(document: dict[str, Any], fetch: Fetch) -> Study:
    """Reads a study; `fetch` gives the files that it names."""
    given = Given(with_travel(document, fetch), STUDY)
    tables = tables_of(given, fetch)
    own = given.each("own", lambda it: own_of(it, fetch))
    found = Study(
        title=given.take("title", str, ""),
        base=base_of(given, fetch),
        parameters=given.each("vary", lambda it: parameter_of(it, fetch)),
        seeds=seeds_of(given),
        samples=given.within("samples", int, 1, 10**9, 1),
        sample_seed=given.take("sample_seed", int, 1),
        start=round(10 * given.within("from", NUMBER, 0, 5_184_000, 0)),
        columns=choice.columns_of(given.take("measures", list, [])),
        own=own,
        tables=tables,
    )
    given.end()
    check(found)
    return found


def check(study: Study) -> None:
    """Refuses what doesn't go together."""
    names = [it.name for it in study.parameters] + [it.name for it in study.own] + choice.names(study.columns)
    twice = next((it for it in names if names.count(it) > 1), None)
    if twice:
        raise Fault(f"study: two columns of the table would be called {twice}")
    if study.samples > 1 and not study.is_drawn():
        raise Fault("study: samples needs a random parameter")
    drawing = "flow" in study.tables.get("traffic", {}) or {"line", "volumes"} & set(study.tables)
    if study.seeds and not (drawing or study.base.kind is BaseKind.GENERATE):
        raise Fault("study: seeds need traffic.flow, volumes, line, or generate: nothing here is random")
    if "street" not in study.tables and (needs := choice.needing(study.columns, Scope.STREET)):
        raise Fault(f"study: {needs} needs the table street, which has the travel times")
    if "volumes" not in study.tables and (needs := choice.needing(study.columns, Scope.TRAFFIC)):
        raise Fault(f"study: {needs} needs the table volumes, which has the traffic")
    if not study.columns and not study.own:
        raise Fault("study: measures is missing (./arterial sweep measures lists them)")
