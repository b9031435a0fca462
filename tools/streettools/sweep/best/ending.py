"""What a search leaves: the table of its runs, the best plan as a scenario and as a sheet, its picture next to the
present plan."""

import json
from collections.abc import Iterator
from pathlib import Path
from typing import Any

from ...look.called import Called
from ...plan.reading import Street
from ...plan.sources import Source
from ...shared import files
from ...shared.cells import tables_of
from ...shared.saying import say
from .. import bands, queued, table
from ..one_run import Runner, kept
from ..variants import Placed, Variant
from . import picture, sheet
from .opened import Opened
from .tries import Try

TABLE, SCENARIO, SHEET, PICTURE = "tries.csv", "best.json", "best.toml", "best.svg"
COMPARISON_TEXT, COMPARISON_JSON = "comparison.txt", "comparison.json"
USUAL_CYCLE = 100
"""Seconds, for the picture of a street without a cycle."""
NAMES = (TABLE, SCENARIO, SHEET, PICTURE, COMPARISON_TEXT, COMPARISON_JSON)


def table_names(search: Opened) -> list[str]:
    """Returns the names of the table's columns: those of a sweep, and what belongs to the search."""
    return [*search.ready.names(), "plan", "repaired", "goal"]


def table_lines(search: Opened, tries: list[Try]) -> Iterator[list[Any]]:
    """Yields a line for each run of the search; the parameters of the present plan are empty."""
    number = 0
    for it in tries:
        for asked, row in zip(it.runs, it.rows, strict=True):
            number += 1
            variant = search.ready.variants.of(asked)
            shown = [None] * len(search.space.counts) if it.places is None else variant.shown()
            seed = [variant.seed] if search.ready.study.seeds else []
            yield [number, *shown, *seed, *row, it.number, int(it.is_repaired), search.goal.of(row)]


def values_of(search: Opened, it: Try) -> str:
    """Returns the values of a plan in words."""
    if it.places is None:
        return "the present plan"
    shown = search.space.variant(it.places).shown()
    named = (f"{parameter.name} {value}" for parameter, value in zip(search.ready.study.parameters, shown))
    return ", ".join(named) + (" (repaired)" if it.is_repaired else "")


def trace_of(search: Opened, runner: Runner, variant: Variant) -> bytes:
    """Returns the trace of a run."""
    built = search.ready.builder.built(variant)
    if built.queued is not None:
        terms = queued.Terms(runner.start, float("inf"), keeps_trace=True)
        return queued.run(runner.program, built.scenario, built.queued, terms).trace or b""
    with kept(built.text) as given, kept() as trace:
        runner.trace(given, trace)
        trace.seek(0)
        return trace.read()


def drawn_of(search: Opened, runner: Runner, title: str, variant: Variant) -> picture.Drawn:
    """Returns a plan as it is drawn."""
    built = search.ready.builder.built(variant)
    widest = bands.widest(runner.program, built.scenario, built.street, runner.seconds) if built.street else None
    return picture.Drawn(title, trace_of(search, runner, variant), widest)


def street_of(search: Opened, variant: Variant) -> picture.Street:
    """Returns the street that is drawn: that of the study's bands, else all cabinets."""
    built = search.ready.builder.built(variant)
    cabinets, street = built.scenario["cabinets"], built.street
    rows = list(enumerate(cabinets, 1))
    own = [number for number, it in rows if street is None or it.get("section", 1) == street.section]
    numbers = own or [number for number, _ in rows]
    travel = list(street.travel) if street and len(street.travel) == len(numbers) - 1 else None
    first = cabinets[numbers[0] - 1]
    cycle = tables_of(first).pattern(street.pattern if street else first.get("pattern", 1), 2) or USUAL_CYCLE
    span = picture.window(10 * cycle, built.scenario["rounds"] * built.scenario["ticks"])
    return picture.Street(numbers, travel, span, Called(search.names()))


def draw(search: Opened, runner: Runner, plans: list[tuple[str, Placed]], path: Path) -> None:
    """Draws plans with their titles: the present one and the best one."""
    variants = [(title, search.ready.variants.of(asked)) for title, asked in plans]
    drawn = [drawn_of(search, runner, *it) for it in variants]
    picture.draw(drawn, street_of(search, variants[-1][1]), str(path))


def write_plan(search: Opened, scenario: dict[str, Any], folder: Path) -> None:
    """Writes the best plan as a scenario and as a timing sheet."""
    with files.output(folder / SCENARIO) as out:
        out.write(json.dumps(scenario, separators=(",", ":")) + "\n")
    source = search.source or Source("", street=Street(scenario, search.names()))
    text, is_kept = sheet.text_of(source, scenario)
    if source.sheet is not None and not is_kept:
        say("sweep", f"{folder / SHEET}: comments are left out, since the values can't be put in place")
    with files.output(folder / SHEET) as out:
        out.write(text)


def write_table(search: Opened, tries: list[Try], folder: Path) -> None:
    """Writes the table of all runs of the search."""
    table.write(folder / TABLE, table_names(search), table_lines(search, tries))
