"""The same street under SUMO's own controllers: NEMA in two rings and actuated stages with the times of a scenario, or
the static programs of the network.

NEMA runs the pattern in command as the cabinets open; without one it runs free. Neither has walk times, preempts or
priority: a crossing has green with its phase. Under NEMA its green is one that yields (SUMO's g), since SUMO 1.15
crashes on a NEMA phase in which a crossing has G; vehicles that yield let persons go first all the same.
"""

import itertools
import pathlib
import time
import xml.etree.ElementTree as xml
from collections.abc import Callable
from typing import Any

from ..shared.fault import Fault
from ..shared.plans import coordinated
from ..shared.tables import Tables
from . import drive
from .checks import yielding_in
from .drive import Start
from .halts import Halts
from .loop import Given, Times, pending_in, types_of
from .mapping import MappedSignal
from .network import Link, Network
from .records import Trip
from .run import Left, Span, read_traffic
from .signals import MayYield, Watch

NEMA, ACTUATED = "nema", "actuated"
STATIC = "static"
"""The programs that the network itself has."""
LOOP = 15


def states(
    signal: MappedSignal, network: Network, phases: set[int], letter: str | None = None, walk: str = "G"
) -> str:
    """Returns the state in which some phases have way, or show a letter to vehicles; persons have way by `walk`."""
    links = {link.name: link.index for link in network.links[signal.id]}
    shown = ["r"] * (1 + max(links.values()))
    for movement in signal.movements:
        ways = [yields for phase, yields in movement.ways() if phase in phases]
        if not ways or movement.walk and letter:
            continue
        for name in movement.links:
            shown[links[name]] = letter or (walk if movement.walk else "g" if all(ways) else "G")
    return "".join(shown)


def stage(duration: float, state: str, **more: Any) -> tuple[str, dict[str, Any]]:
    """Returns a phase of a program of SUMO."""
    return "phase", {"duration": duration, "state": state} | more


def rings(tables: Tables, pattern: int) -> list[list[list[int]]]:
    """Returns the phases of both rings in their order, side by side."""
    sequence = tables.pattern(pattern, 5) if pattern else 1
    found = []
    for ring in (1, 2):
        phases = tables.sequence(sequence, ring)
        found.append([list(own) for _, own in itertools.groupby(phases, lambda it: min(tables.side(it)))])
    return found


def served_by(signal: MappedSignal) -> set[int]:
    """Returns the phases that have vehicles."""
    return {phase for it in signal.movements if not it.walk for phase in it.phases()}


def nema(signal: MappedSignal, network: Network, tables: Tables, pattern: int) -> tuple[dict, list]:
    """Returns SUMO's NEMA program of a signal: its attributes, and its parts."""
    served = served_by(signal)
    pair = coordinated(tables, pattern) if pattern and tables.pattern(pattern, 2) else None
    own = rings(tables, pattern if pair else 0)
    if any(served.isdisjoint(side) for ring in own for side in ring):
        raise Fault(f"signal {signal.id}: SUMO's NEMA controller needs a phase with traffic on each side of both rings")
    ends = [[[it for it in side if it in served][-1] for side in ring] for ring in own]
    orders = [",".join(str(it if it in served else 0) for side in ring for it in side) for ring in own]
    params = {
        "detector-length": LOOP,
        "detector-length-leftTurnLane": LOOP,
        "total-cycle-length": tables.pattern(pattern, 2) if pair else 90,
        "ring1": orders[0],
        "ring2": orders[1],
        "barrierPhases": f"{ends[0][-1]},{ends[1][-1]}",
        "coordinate-mode": "true" if pair else "false",
        "coordinatePhases": ",".join(map(str, pair or (ends[0][0], ends[1][0]))),
        "minRecall": ",".join(str(it) for it in sorted(served) if tables.option(it, 64)),
        "maxRecall": ",".join(str(it) for it in sorted(served) if tables.option(it, 128)),
        "whetherOutputState": "false",
        "fixForceOff": "true",
        "controllerType": "TS2",
    }
    rows = [("param", {"key": key, "value": value}) for key, value in params.items()]
    for phase in sorted(served):
        yellow, red = tables.phase(phase, 8) / 10, tables.phase(phase, 9) / 10
        split = tables.split(tables.pattern(pattern, 4), phase, 3) - yellow - red if pair else tables.phase(phase, 6)
        times = {"minDur": tables.phase(phase, 4), "maxDur": split, "vehext": tables.phase(phase, 5) / 10}
        state = states(signal, network, {phase}, walk="g")
        rows.append(stage(99, state, name=phase, yellow=yellow, red=red, **times))
    offset = tables.pattern(pattern, 3) if pair else 0
    return {"id": signal.id, "type": "NEMA", "programID": "arterial", "offset": offset}, rows


def actuated(signal: MappedSignal, network: Network, tables: Tables, pattern: int) -> tuple[dict, list]:
    """Returns SUMO's actuated program of a signal: phases of both rings in pairs, one after another."""
    served = served_by(signal)
    rows = []
    orders = [[it for side in ring for it in side] for ring in rings(tables, 0)]
    for pair in zip(*orders):
        on = served & set(pair)
        if not on:
            continue
        least = max(tables.phase(it, 4) for it in on)
        most = max(tables.phase(it, 6) for it in on)
        rows.append(stage(least, states(signal, network, on), minDur=least, maxDur=most))
        rows.append(stage(max(tables.phase(it, 8) for it in on) / 10, states(signal, network, on, "y")))
        rows.append(stage(max(tables.phase(it, 9) for it in on) / 10, states(signal, network, set())))
    return {"id": signal.id, "type": "actuated", "programID": "arterial", "offset": 0}, rows


MAKERS = {NEMA: nema, ACTUATED: actuated}


def programs(given: Given, controller: str) -> xml.ElementTree:
    """Returns the programs of all signals as an additional file of SUMO."""
    root = xml.Element("additional")
    for signal in given.street.signals:
        setup = given.scenario["cabinets"][signal.cabinet - 1]
        tables = Tables(setup.get("base", "std8"), setup.get("cells", ()))
        head, rows = MAKERS[controller](signal, given.network, tables, setup.get("pattern", 0))
        element = xml.SubElement(root, "tlLogic", {key: str(value) for key, value in head.items()})
        for tag, words in rows:
            xml.SubElement(element, tag, {key: str(value) for key, value in words.items()})
    xml.indent(root)
    return xml.ElementTree(root)


def anything(one: Link, other: Link) -> bool:
    """Lets any link yield: the network's own program is taken as it is."""
    return True


def run(
    given: Given, controller: str, out: pathlib.Path, progress: Callable[[int], object]
) -> tuple[list[Trip], Times]:
    """Runs SUMO under its own controller, and returns the trips. The watch over crossing paths runs here as well."""
    sumo = drive.module()
    added: list[pathlib.Path] = []
    may_yield: MayYield = anything
    if controller != STATIC:
        path = out / "programs.add.xml"
        programs(given, controller).write(path, encoding="unicode")
        added, may_yield = [path.resolve()], yielding_in(given.street, given.network, given.scenario)
    names = [it.id for it in given.street.signals]
    watch = Watch(given.network, names, may_yield, sumo)
    halts, times = Halts(given.network, names, sumo), Times()
    begun = time.perf_counter()
    with drive.running(sumo, Start(given.config, tuple(added), given.step, given.seconds, given.seed, out)):
        a_second, take_step = max(round(1 / given.step), 1), drive.call(sumo, "simulation", "step")
        for step in range(given.steps()):
            take_step()
            second = round((step + 1) * given.step, 1)
            watch.look(second)
            if (step + 1) % a_second == 0:
                halts.look(second)
                progress(1)
        left = Left(types_of(sumo), pending_in(sumo))
    times.whole, times.steps = time.perf_counter() - begun, given.steps()
    history = {name: rows for name, rows in watch.history.items()}
    span = Span(given.config.begin, given.seconds)
    trips, _ = read_traffic(given.street, given.network, history, halts.found, left, out, span)
    if not trips:
        raise Fault(f"{given.config.path}: no vehicle drove")
    return trips, times
