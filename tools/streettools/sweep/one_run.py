"""One run: a variant's scenario through the program, and its measures."""

import enum
import io
import os
import subprocess
import time
from dataclasses import dataclass, replace
from pathlib import Path
from typing import Any, BinaryIO

from ..cosim.movements import Count
from ..shared.fault import Fault
from ..shared.program import Late, Ran, ran
from ..shared.trace_records import NotATrace
from ..shared.status import Status
from ..shared.trace_reader import TraceReader
from . import bands, queued, trace_rows
from .building import Builder, Built
from .choice import Column
from .counts import RunCounts, StreetCounts
from .measures import Scope
from .needs import Needs
from .own import Own
from .queued import Queued
from .sensed import Sensed
from .study import Street
from .tally import CabinetTally
from .variants import Variant


Traffic = dict[tuple[int, int], Count]
"""The vehicles of each cabinet and phase."""
PAUSES = (0, 1, 5)
"""The seconds before each try of a run."""


class Outcome(enum.StrEnum):
    """The outcome of a run."""

    DONE = "done"
    REFUSED = "refused"
    FAILED = "failed"


@dataclass(frozen=True)
class Run:
    """A run, as it is passed to a user's own measure."""

    scenario: dict[str, Any]
    trace: bytes

    def reader(self) -> TraceReader:
        """Returns the trace's reader: `reader().happenings()` yields what happened
        (tools/streettools/shared/trace_reader.py)."""
        return TraceReader(io.BytesIO(self.trace))


class Failed(Exception):
    """A run gave no measures; the words say why."""


def kept(text: bytes = b"") -> BinaryIO:
    """Returns a file in memory that holds a text: the program reads and writes such, so that neither waits for the
    other."""
    file = os.fdopen(os.memfd_create("arterial-sweep"), "w+b", buffering=0)
    left = memoryview(text)
    while left:
        left = left[file.write(left) :]
    file.seek(0)
    return file


class Runner:
    """Runs variants and measures them."""

    def __init__(
        self,
        builder: Builder,
        program: Path,
        columns: tuple[Column, ...],
        own: tuple[Own, ...],
        check: bool,
        seconds: float,
    ):
        self.builder, self.program, self.columns = builder, program, columns
        self.own = [it.compiled() for it in own]
        self.check, self.seconds = check, seconds
        self.start = builder.study.start
        scopes = {(it.measure.scope, it.measure.name) for it in columns}
        self.needs = Needs(columns)
        self.street = any(scope is Scope.STREET for scope, _ in scopes)
        self.traffic = any(scope is Scope.TRAFFIC for scope, _ in scopes)
        self.looks = check or bool(own) or any(scope is not Scope.TRAFFIC for scope, _ in scopes)
        """Whether traces are looked at where vehicles wait in queues."""
        self.planned = any(name in ("band_outbound", "band_inbound") for _, name in scopes)

    def row(self, variant: Variant) -> list[Any]:
        """Returns the results of a variant: outcome, words, hash of the scenario, and its measures."""
        blank = [None] * (len(self.columns) + len(self.own))
        name = None
        try:
            built = self.made(variant)
            name = built.name()
            if built.queued:
                return [Outcome.DONE.value, None, name, *self.queued(built, built.queued)]
            with kept(built.text) as given, kept() as trace:
                refusal = self.trace(given, trace)
                if refusal is not None:
                    return [Outcome.REFUSED.value, refusal, name, *blank]
                return [Outcome.DONE.value, None, name, *self.measured(built, trace)]
        except Fault as fault:
            return [Outcome.REFUSED.value, str(fault), name, *blank]
        except (Failed, OSError) as fault:
            return [Outcome.FAILED.value, str(fault), name, *blank]

    def made(self, variant: Variant) -> Built:
        """Returns a variant's scenario."""
        try:
            return self.builder.built(variant)
        except (TypeError, KeyError, AttributeError, ValueError) as fault:
            raise Fault(f"no scenario can be made of this variant: {type(fault).__name__}: {fault}") from None

    def trace(self, given: BinaryIO, trace: BinaryIO) -> str | None:
        """Writes the trace of a scenario; returns the line with which the program refuses it, None if it doesn't."""
        answer = self.ran("run", given, trace)
        if answer.status == Status.REFUSED:
            return answer.said
        if answer.status:
            raise Failed(answer.said or f"the program ended with status {answer.status}")
        self.checked(trace)
        return None

    def queued(self, built: Built, demand: Queued) -> list[Any]:
        """Runs a variant with the vehicles of its volumes, and returns its measures."""
        try:
            terms = queued.Terms(self.start, time.monotonic() + self.seconds, self.looks)
            ran = queued.run(self.program, built.scenario, demand, terms)
        except Fault as fault:
            if fault.status == Status.REFUSED:
                raise
            raise Failed(str(fault)) from None
        except TimeoutError:
            raise Failed(f"live was not done in {self.seconds:g} s") from None
        traffic = queued.counted(ran) if self.traffic else {}
        if ran.trace is None:
            return [it.value(RunCounts({}, {}, StreetCounts(), traffic)) for it in self.columns]
        with kept(ran.trace) as trace:
            self.checked(trace)
            return self.measured(replace(built, scenario=queued.scenario_of(ran.trace)), trace, traffic)

    def checked(self, trace: BinaryIO) -> None:
        """Has a trace checked, if that is asked for."""
        if self.check and (answer := self.ran("check", trace, subprocess.DEVNULL)).status:
            raise Failed(f"check: {answer.said}")

    def ran(self, word: str, given: BinaryIO, to: BinaryIO | int) -> Ran:
        """Runs the program. Where it can't be started or is killed, as on a machine without memory, it is tried
        again."""
        fault = ""
        for pause in PAUSES:
            time.sleep(pause)
            given.seek(0)
            if not isinstance(to, int):
                to.seek(0)
                to.truncate()
            try:
                answer = ran(self.program, word, given=given, out=to, seconds=self.seconds)
            except Late as late:
                raise Failed(str(late)) from None
            except OSError as why:
                fault = f"the program can't be started: {why.strerror}"
                continue
            if answer.status >= 0:
                return answer
            fault = f"the program was ended by signal {-answer.status}"
        raise Failed(fault)

    def measured(self, built: Built, trace: BinaryIO, traffic: Traffic | None = None) -> list[Any]:
        """Returns the measures of a run."""
        counts = self.counted(built, trace) if self.columns else RunCounts({}, {}, StreetCounts())
        counts.traffic = traffic or {}
        found: list[int | float | str | None] = [it.value(counts) for it in self.columns]
        trace.seek(0)
        text = trace.read() if self.own else b""
        for function in self.own:
            try:
                value = function(Run(built.whole(), text))
            except Exception as fault:
                raise Failed(f"{function.__name__}: {type(fault).__name__}: {fault}") from None
            if value is not None and not isinstance(value, (int, float, str)):
                raise Failed(
                    f"{function.__name__} returned a {type(value).__name__}, and has to return a number, a text or None"
                )
            found.append(value)
        return found

    def counted(self, built: Built, trace: BinaryIO) -> RunCounts:
        """Counts what happened in a run."""
        scenario = built.scenario
        trace.seek(0)
        last = scenario["rounds"] * scenario["ticks"]
        sensed = Sensed(built.streams() if self.needs.inputs else (), scenario["ticks"])
        numbers = range(1, len(scenario["cabinets"]) + 1)
        tallies = {number: CabinetTally(scenario, number, self.start, self.needs, sensed) for number in numbers}
        enabled = {number: it.cabinet.tables.enabled() for number, it in tallies.items()}
        street = self.street_of(built, built.street, tallies) if self.street and built.street else None
        try:
            self.follow(trace, tallies)
        except (ValueError, KeyError, NotATrace):
            raise Failed("the program wrote a line that isn't one of a trace") from None
        cabinets = {number: it.close(last) for number, it in tallies.items()}
        seen = street.close(last) if street else StreetCounts()
        if self.planned and built.street:
            seen.planned = bands.planned(self.program, scenario, built.street, self.seconds)
        phases = {
            (number, phase): it.phases[phase].close(last)
            for number, it in tallies.items()
            for phase in enabled[number]
            if phase in it.phases
        }
        return RunCounts(phases, cabinets, seen)

    def street_of(self, built: Built, its: Street, tallies: dict[int, CabinetTally]) -> bands.StreetTally:
        """Returns the street of a run, whose greens its cabinets tell."""
        cabinets = {number: it.cabinet for number, it in tallies.items()}
        street = bands.StreetTally(its, cabinets, built.scenario, self.start)
        for number, greens in street.greens.items():
            tallies[number].street = greens
        return street

    def follow(self, trace: BinaryIO, tallies: dict[int, CabinetTally]) -> None:
        """Passes what happened in a run to the cabinets."""
        shown = {b"%d" % number: it.shown for number, it in tallies.items()}
        for it in trace_rows.happenings(trace):
            if isinstance(it, trace_rows.Over):
                tallies[it.cabinet].over(it)
            elif isinstance(it, trace_rows.Said):
                tallies[it.cabinet].said(it)
            else:
                shown[it[0]](it)
