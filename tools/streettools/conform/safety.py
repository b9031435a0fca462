"""The safety of what a device showed: the lines of its display, and the breaches that a judge finds in them.

`breaches_of` is the only place that asks a judge: `arterial judge`, which reads the lines and the tables, and knows no
rule of a tick.
"""

import json
import pathlib
import tempfile
from collections.abc import Iterator
from typing import Any

from ..log import judging
from ..log.sentences import Line, Watch, words_of
from ..shared.cells import cells_between, with_cells
from ..shared.tables import Tables
from . import steps
from .comparing import has_due
from .driving import LEAD, Driven
from .expected import Expected, START
from .objects import FLASH, FREE, Display
from .scripts import Script
from .watching import Sample, Span

PHASES = 16
TOLERANCE, MOST_TOLERANCE = 2, 20
"""The ticks by which the length of an interval may differ if the time of its polls isn't known exactly; the highest
tolerance that the judge takes."""
CLEARANCE = 9
"""The column of red clearance in the phase table."""


def mode_of(shown: Display, has_started: bool) -> str:
    """Returns the mode of a display, as far as the device reports it."""
    if shown.stage:
        return shown.stage
    if shown.pattern == FLASH:
        return "X"
    if shown.pattern is not None and 0 < shown.pattern < FREE - 1:
        return f"C{shown.pattern}"
    return "F" if has_started else "S"


def filled(driven: Driven, due: Expected, has_clearance: bool) -> Iterator[Sample]:
    """Yields the samples. If two samples agree with the proved cabinet and there are ticks between them, its displays
    are those of these ticks: nothing else is known of them."""
    before: Sample | None = None
    for sample in driven.samples:
        agrees = has_due(sample, due, has_clearance)
        if before is not None and agrees and has_due(before, due, has_clearance):
            count = len(sample.display.vehicles)
            for tick in range(before.span.last + 1, sample.span.first):
                it = due.at(START + tick).display()
                shown = Display(it.vehicles[:count], it.pedestrians[:count], it.pattern, None, it.stage)
                yield Sample(Span(tick, tick), shown)
        yield sample
        before = sample


def frame_lines(driven: Driven, forced: list[int], due: Expected, has_clearance: bool) -> list[str]:
    """Returns the F lines of a device's display. `forced` are the ticks at which loads came into force: the version
    counts them. A mode that the device doesn't report is that of the proved cabinet."""
    found: list[str] = []
    before: object = None
    tick = START
    for sample in driven.exact or filled(driven, due, has_clearance):
        shown = sample.display
        is_dark, tick = shown.is_dark(), max(tick, START + sample.span.last)
        mode = mode_of(shown, not is_dark or before is not None)
        if not shown.stage and mode == "F":
            mode = due.at(tick).mode
        version = sum(it < sample.span.first for it in forced)
        what = (shown.vehicles.ljust(PHASES, "R"), shown.pedestrians.ljust(PHASES, "D"), mode, version)
        if what != before and "?" not in what[0] + what[1]:
            before = what
            if found and found[-1].startswith(f"F 1 {tick} "):
                found.pop()
            found.append(f"F 1 {tick} {what[0]} {what[1]} {mode} {10 * (shown.sync or 0)} 0 {version}")
    return found


def lines_of(
    driven: Driven, script: Script, tables: Tables, expected: Expected, has_clearance: bool
) -> tuple[dict[str, Any], list[str]]:
    """Returns the scenario of the device, and the lines of its display: F lines, and an L line for each load that came
    into force."""
    loads: list[dict[str, Any]] = []
    forced: list[int] = []
    staged: list[list[Any]] | None = None
    in_force = tables
    for done in driven.acts:
        if done.act.kind == steps.STAGE:
            staged = script.load(done.act.name, in_force)
        elif done.act.kind == steps.VERIFY and done.is_valid is False:
            staged = None
        elif done.act.kind == steps.FORCE and staged and not done.why:
            loads.append({"round": 1, "cabinet": 1, "cells": staged})
            forced.append(done.span.last)
            in_force = with_cells(in_force, staged)
            staged = None
        elif done.act.kind == steps.DISCARD:
            staged = None
    cells = cells_between(Tables("std8"), tables)
    if not (has_clearance or any("C" in it.display.vehicles for it in driven.exact)):
        # red clearance is shown as red, so none is expected
        cells += [["phase", phase, CLEARANCE, 0] for phase in range(1, PHASES + 1)]
    cabinet = {"base": "std8", "cells": cells}
    scenario: dict[str, Any] = {"version": 1, "rounds": 200, "ticks": 600, "cabinets": [cabinet]}
    if loads:
        scenario["loads"] = loads
    return scenario, with_loads(frame_lines(driven, forced, expected, has_clearance))


def with_loads(frames: list[str]) -> list[str]:
    """Returns F lines with an L line before the first line of each new version."""
    found, version = [], 0
    for line in frames:
        now = int(line.rsplit(" ", 1)[1])
        while version < now:
            version += 1
            found.append(f"L 1 {version} accepted {version}")
        found.append(line)
    return found


def breaches_of(program: str, scenario: dict[str, Any], lines: list[str], tolerance: int = 0) -> list[str]:
    """Returns the breaches in the lines of one cabinet, which begin in the middle: each once, in words, with the time
    of the test at which it shows first. With a tolerance a poll may have missed a short interval, so the order of
    colours and signals isn't judged then."""
    if not any(line.startswith("F ") for line in lines):
        return []
    with tempfile.TemporaryDirectory() as folder:
        log = pathlib.Path(folder, "log")
        log.write_text("".join(f"{line}\n" for line in (f"S {json.dumps(scenario)}", *lines)), encoding="ascii")
        found = judging.judged(program, [str(log)], min(tolerance, MOST_TOLERANCE)).breaches
    wanted: dict[int, list[judging.Breach]] = {}
    for it in found:
        if not tolerance or judging.CLAUSES[it.clause - 1] != "order":
            wanted.setdefault(it.tick, []).append(it)
    said: dict[str, str] = {}
    for tick, words in worded(scenario, lines, wanted):
        said.setdefault(words, f"{words} at {(tick - START - LEAD) / 10:.1f} s")
    return list(said.values())


def worded(
    scenario: dict[str, Any], lines: list[str], wanted: dict[int, list[judging.Breach]]
) -> Iterator[tuple[int, str]]:
    """Yields the breaches with their ticks, in words, by the tables of the version before each."""
    versions = [Tables("std8", scenario["cabinets"][0]["cells"])]
    for load in scenario.get("loads", ()):
        versions.append(with_cells(versions[-1], load["cells"]))
    watch = Watch(versions[0])
    for line in lines:
        if not line.startswith("F "):
            continue
        _, _, tick, colours, signals, mode, _, _, version = line.split(" ")
        for breach in wanted.get(int(tick), ()):
            yield int(tick), words_of(watch, breach, Line(int(tick), colours, signals, mode))
        watch.take(int(tick), colours, signals)
        watch.tables = versions[int(version)]
