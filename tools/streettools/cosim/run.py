"""A run of SUMO under the cabinets of a session, from files to files: the trace, what SUMO wrote, the study."""

import contextlib
import json
import pathlib
from collections.abc import Callable
from dataclasses import dataclass
from typing import Any, NamedTuple

from ..plan.suffixes import is_sheet
from ..shared.fault import Fault
from ..shared.given import content_of
from ..shared.status import Status
from . import discharge, drive, report, undisturbed
from .checks import check
from .drive import Start
from .halts import Halt
from .loop import Given, Loop, Times, built_areas, pending_in, types_of
from .mapping import Map
from .network import Network
from .passing import Traffic, starts_of, stood_of, trips_of, walks_of
from .persons import Crossed
from .records import Kind, Movement, Passage, Study, Trip, queue_samples, save
from .session import Session

TRACE, STUDY, REPORT = "session.trace", "study.json", "report"


class Left(NamedTuple):
    """What SUMO says at the end of a run: the class and the greatest speed of each type, the routes of vehicles that
    wait to get in."""

    types: dict[str, tuple[str, float]]
    pending: dict[str, list[str]]


class Span(NamedTuple):
    """The second of SUMO at which a run begins, and how many seconds it took."""

    begin: float
    end: float


@dataclass
class Done:
    """The result of a run: the study (None if nothing was recorded), times, and the fault that ended it early."""

    study: Study | None
    times: Times
    fault: Fault | None = None
    refusals: int = 0


def read_scenario(path: pathlib.Path) -> dict[str, Any]:
    """Reads a scenario, or the one of a timing sheet; what is in it is for the program to judge."""
    if is_sheet(str(path)):
        from ..plan import taking  # takes a while

        return taking.sheet(str(path)).scenario
    try:
        found = json.loads(content_of(path))
    except (ValueError, RecursionError):
        raise Fault(f"{path}: scenario: not JSON") from None
    if not isinstance(found, dict) or not all(isinstance(found.get(name), int) for name in ("ticks", "rounds")):
        raise Fault(f"{path}: a scenario has ticks and rounds (docs/SCENARIO.md)")
    if not 1 <= found["ticks"] <= 600:
        raise Fault(f"{path}: scenario: limit ticks")
    return found


def movements_of(street: Map) -> list[Movement]:
    """Returns the movements of a map."""
    return [
        Movement(it.cabinet, row.name, row.phase, () if row.phases() == (row.phase,) else row.phases())
        for it in street.signals
        for row in it.movements
    ]


def preflight(given: Given, program: pathlib.Path) -> None:
    """Refuses a scenario that the program refuses, and a map that doesn't fit, without a run."""
    with Session(program, given.for_session()):
        check(given.street, given.network, given.scenario)


def run(given: Given, program: pathlib.Path, out: pathlib.Path, progress: Callable[[int], object]) -> Done:
    """Runs SUMO and a session side by side, and writes the results into an existing folder. Faults of the input are
    reported before SUMO starts; a run that ends early keeps what it has recorded."""
    sumo = drive.module()
    session = Session(program, given.for_session())
    loop: Loop | None = None
    fault: Fault | None = None
    types: dict[str, Any] = {}
    pending: dict[str, list[str]] = {}
    try:
        check(given.street, given.network, given.scenario)
        areas, added = built_areas(given.street, given.network, out)
        start = Start(given.config, added, given.step, given.seconds, given.seed, out)
        try:
            with drive.running(sumo, start):
                loop = Loop(given, sumo, session, areas)
                try:
                    loop.run(progress)
                finally:
                    types, pending = types_of(sumo), pending_in(sumo)
        except (Fault, KeyboardInterrupt) as raised:
            if loop is None or not loop.times.steps:
                raise
            stopped = Fault("interrupted; what was recorded is kept", Status.INTERRUPTED)
            fault = raised if isinstance(raised, Fault) else stopped
        with contextlib.suppress(Fault):  # the record has what came before
            session.close()
    finally:
        session.end()
    assert loop is not None
    return done(given, loop, session, Left(types, pending), out, fault)


def done(given: Given, loop: Loop, session: Session, left: "Left", out: pathlib.Path, fault: Fault | None) -> Done:
    """Writes what was recorded."""
    if not session.save(out / TRACE):
        return Done(None, loop.times, fault)
    halts, begin = loop.halts.found, given.config.begin
    seconds = loop.second
    history = loop.watch.history
    trips, traffic = read_traffic(given.street, given.network, history, halts, left, out, Span(begin, seconds))
    movements = movements_of(given.street)
    passed = discharge.passages_of(traffic, halts, loop.crossings.lanes)
    study = Study(
        cabinets=len(given.scenario["cabinets"]),
        movements=movements,
        trace=out / TRACE,
        trips=trips + persons_of(loop.buttons.crossed, walks_of(out / drive.TRIPS, begin)),
        queues=queue_samples(trips, movements),
        seconds=seconds,
        warm=given.warm,
        requests=loop.priority.done,
        title=given.config.path.stem,
        lanes=discharge.lane_flows(lanes_of(given), history, passed),
    )
    save(study, out / STUDY)
    quiet = undisturbed.shares(study.trace.read_bytes(), study.warm, study.seconds)
    value = report.collect(study, more=report.More(given.names, quiet))
    (out / f"{REPORT}.json").write_text(report.json_text(value), encoding="utf-8")
    (out / f"{REPORT}.txt").write_text(report.text(value), encoding="utf-8")
    return Done(study, loop.times, fault, loop.priority.refusals)


def read_traffic(
    street: Map,
    network: Network,
    history: dict[str, list[tuple[float, str]]],
    halts: list[Halt],
    left: Left,
    out: pathlib.Path,
    span: Span,
) -> tuple[list[Trip], Traffic]:
    """Reads what SUMO wrote of its vehicles."""
    traffic = Traffic(street, network, history)
    traffic.read_stops(out / drive.STOPS)
    traffic.read_routes(out / drive.ROUTES, span.begin, starts_of(out / drive.TRIPS))
    traffic.wait(left.pending, out / drive.TRIPS, span.end)
    return trips_of(out / drive.TRIPS, traffic, span.begin, left.types, stood_of(halts), span.end), traffic


def lanes_of(given: Given) -> list[discharge.Approach]:
    """Returns the lanes before the signals that cabinets have."""
    return discharge.approaches(given.network, {it.id: it.cabinet for it in given.street.signals})


def persons_of(crossed: list[Crossed], walks: dict[str, tuple[float, float | None]]) -> list[Trip]:
    """Returns the persons who came to crossings: their delay is their waits there, their trips are their whole
    walks."""
    rows: dict[str, list[Crossed]] = {}
    for it in crossed:
        rows.setdefault(it.person, []).append(it)
    found = []
    for person, own in rows.items():
        passages = tuple(
            Passage(
                it.cabinet, it.movement, it.phase, it.arrived, it.released, round(it.released - it.arrived, 2),
                it.stood, it.on_walk,
            )  # fmt: skip
            for it in own
            if it.released is not None
        )
        delay = round(sum(it.delay for it in passages), 2)
        stops = sum(it.stood for it in own)
        route = person.rpartition(".")[0] or person
        start, end = walks.get(person, (own[0].arrived, own[-1].released))
        found.append(Trip(person, route, Kind.PERSON, passages, start, end, delay, stops))
    return found
