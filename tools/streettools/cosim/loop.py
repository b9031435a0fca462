"""SUMO and the cabinets side by side: the cabinets receive what each step of SUMO changes, and what they show then is
what SUMO's vehicles see in the next step.
"""

import contextlib
import gc
import math
import pathlib
import time
from collections.abc import Callable, Iterator
from dataclasses import dataclass, field
from typing import Any

from ..shared.fault import Fault
from ..shared.session import LISTS
from ..shared.session_record import Room
from ..shared.status import Status
from .checks import yielding_in
from .detectors import Areas, Detectors
from .discharge import Crossings
from .drive import Config, call
from .halts import Halts
from .mapping import Map
from .network import Network
from .persons import Buttons
from .policies import Policy
from .policies import Street as PolicyStreet
from .preempts import Preempts
from .priority import Priority
from .session import Session
from .signals import Signals, Watch
from .watched import Watched

TICKS_A_SECOND = 10
MOST_ROUNDS = 86_400


@dataclass(frozen=True)
class Given:
    """What a run is of: SUMO's configuration, map, network, scenario; step and length in seconds; the seed; whether
    buses ask for priority; from which second on trips count; the policy that drives the cabinets, if there is one."""

    config: Config
    street: Map
    network: Network
    scenario: dict[str, Any]
    step: float
    seconds: float
    seed: int | None = None
    priority: bool = True
    warm: float = 0.0
    names: dict[int, str] = field(default_factory=dict)
    """What cabinets are called, as far as they have names."""
    policy: pathlib.Path | None = None

    def ticks(self) -> int:
        """Returns the ticks of a step."""
        return round(self.step * TICKS_A_SECOND)

    def steps(self) -> int:
        """Returns how many steps the run has."""
        return math.floor(self.seconds / self.step + 1e-9)

    def for_session(self) -> dict[str, Any]:
        """Returns the scenario with as many rounds as the run needs, and its items in these rounds."""
        rounds = math.ceil(self.steps() * self.ticks() / self.scenario["ticks"])
        if rounds > MOST_ROUNDS:
            words = f"the run needs {rounds} rounds of {self.scenario['ticks']} ticks"
            raise Fault(f"{words}, and a session has {MOST_ROUNDS}")
        made = self.scenario | {"rounds": rounds}
        for name in LISTS:
            if isinstance(made.get(name), list):
                made[name] = [it for it in made[name] if not is_later(it, rounds)]
        return made


def is_later(item: Any, rounds: int) -> bool:
    """Tells whether an item of a scenario has a round after `rounds`; the program reports items that are invalid."""
    number = item.get("round") if isinstance(item, dict) else None
    return isinstance(number, int) and number > rounds


@dataclass
class Times:
    """Seconds by the loop's clock: of the whole loop, in SUMO, for talking with the cabinets."""

    whole: float = 0.0
    sumo: float = 0.0
    cabinets: float = 0.0
    steps: int = 0


class Loop:
    """A run while SUMO and a session are open."""

    def __init__(
        self,
        given: Given,
        sumo: Any,
        session: Session,
        areas: Areas,
        clock: Callable[[], float] = time.perf_counter,
    ) -> None:
        self.given, self.sumo, self.session, self.clock = given, sumo, session, clock
        street, network = given.street, given.network
        names = [it.id for it in street.signals]
        self.signals = Signals(street, network)
        self.halts = Halts(network, names, sumo, (it.lane for it in areas.places.values()))
        self.crossings = Crossings(network, names, sumo)
        self.watch = Watch(network, names, yielding_in(street, network, given.scenario), sumo)
        self.detectors = Detectors(street, areas, sumo, given.step)
        self.buttons = Buttons(street, network, sumo)
        self.priority = Priority(street, network, given.scenario.get("community", "public"))
        self.preempts = Preempts(street, network)
        self.watched = Watched(self.preempts.names() | (self.priority.names() if given.priority else set()), sumo)
        self.policy: Policy | None = None
        if given.policy is not None:
            its = Standing(street, self.halts)
            community = given.scenario.get("community", "public")
            self.policy = Policy(given.policy, PolicyStreet(len(given.scenario["cabinets"]), its.waiting, community))
            self.policy.heard(session.opened)
        self.room = Room(given.scenario)
        self.times = Times()
        self.second = 0.0
        self.is_slow = any(it.walk for signal in street.signals for it in signal.movements)
        self.take_step, self.ticks = call(sumo, "simulation", "step"), given.ticks()

    def run(self, progress: Callable[[int], object]) -> None:
        """Takes all steps. A conflict, an error of SUMO, a record that is full ends it as a fault."""
        self.signals.show(self.sumo, self.session.opened, 0)
        begun = self.clock()
        a_second = max(round(1 / self.given.step), 1)
        try:
            with without_collector():
                for step in range(self.given.steps()):
                    is_whole = (step + 1) % a_second == 0
                    self.step(step, is_whole)
                    if is_whole:
                        progress(1)
        finally:
            self.times.whole = self.clock() - begun
            self.priority.end()
            self.buttons.end()

    def step(self, step: int, is_whole: bool) -> None:
        """Takes a step of SUMO, then that of the cabinets."""
        start = self.clock()
        self.take_step()
        stepped = self.clock()
        self.second = round((step + 1) * self.given.step, 1)
        requests = self.requests(is_whole)
        if self.policy is not None:
            requests += self.policy.requests(self.second, requests)
        asked = self.clock()
        lines = self.session.tick(self.ticks, requests)
        came = self.clock()
        if lines:
            self.priority.heard(lines)
            if self.policy is not None:
                self.policy.heard(lines)
        if lines or self.signals.always:
            self.signals.show(self.sumo, lines, (step + 1) * self.ticks)
        self.watch.look(self.second)
        self.times.sumo += stepped - start
        self.times.cabinets += came - asked
        self.times.steps += 1

    def requests(self, is_whole: bool) -> list[bytes]:
        """Returns the requests to the cabinets before the ticks; what changes slowly is read once a second."""
        if is_whole:
            self.halts.look(self.second)
            self.crossings.look()
            self.detectors.look_for_strays(self.halts.standing)
        requests = self.detectors.changes()
        if self.watched.names:
            self.watched.step(self.sumo)
            if self.watched.kinds or self.preempts.on:
                requests += self.preempts.look(self.sumo, self.watched)
        if is_whole:
            if self.is_slow:
                requests += self.buttons.look(self.sumo, self.signals, self.second)
            if self.given.priority:
                requests += self.priority.look(self.sumo, self.watched, self.second)
            if self.room.is_used(self.session.record):
                raise Fault(f"second {self.second:.0f}: the record is full: a trace holds no more", Status.FULL)
        return requests


class Standing:
    """How many stopped vehicles the lanes of each movement have, by the last look at halts."""

    def __init__(self, street: Map, halts: Halts) -> None:
        self.halts = halts
        self.lanes = {
            (signal.cabinet, it.name): {link.split(" ")[0] for link in it.links}
            for signal in street.signals
            for it in signal.movements
        }

    def waiting(self, cabinet: int, movement: str) -> int:
        """Returns how many stopped vehicles the lanes of a movement have."""
        return sum(len(self.halts.standing.get(lane, ())) for lane in self.lanes[cabinet, movement])


@contextlib.contextmanager
def without_collector() -> Iterator[None]:
    """Keeps Python's collector from running in the block. It looks for objects that refer to each other in a circle:
    a run makes none, and as it records more and more, each look would take longer."""
    was_on = gc.isenabled()
    gc.disable()
    try:
        yield
    finally:
        if was_on:
            gc.enable()


def types_of(sumo: Any) -> dict[str, tuple[str, float]]:
    """Returns the class and the greatest speed of each type of vehicles."""
    types = sumo.vehicletype
    return {it: (types.getVehicleClass(it), types.getMaxSpeed(it)) for it in types.getIDList()}


def pending_in(sumo: Any) -> dict[str, list[str]]:
    """Returns the routes of the vehicles that wait to get into the network."""
    names = sumo.simulation.getPendingVehicles()
    return {it: list(sumo.vehicle.getRoute(it)) for it in names}


def built_areas(street: Map, network: Network, out: pathlib.Path) -> tuple[Areas, tuple[pathlib.Path, ...]]:
    """Returns the detectors that the tool builds, and the files that have them."""
    areas = Areas(street, network)
    if not areas.places:
        return areas, ()
    path = out / "detectors.add.xml"
    areas.write(path)
    return areas, (path.resolve(),)
