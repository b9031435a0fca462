"""The street of queues, step by step: detectors tell the cabinets, signals open stop lines, vehicles go on."""

import heapq
from collections.abc import Callable, Iterable
from dataclasses import dataclass
from typing import Protocol

from .demand import Demand
from .detectors import PhaseDetectors
from .gaps import Foe, YieldLine
from .lines import Passed, StopLine
from .session import Cabinets
from .signals import Change, Signals
from .volumes import Flow, Volumes
from .yielding import gaps_of, gives_way, yields_to

Reached = tuple[float, int, int]
"""When a vehicle reaches a stop line if nothing holds it, the place of the movement, the vehicle's number."""
Passages = list[list[tuple[float, float]]]
"""For each vehicle the stop lines that it has passed: when it reached each, when it passed it."""


class Acts(Protocol):
    """What acts on the cabinets of a street (`policies.Policy`)."""

    def heard(self, lines: list[bytes]) -> None:
        """Takes what cabinets show."""

    def requests(self, second: float, before: list[bytes]) -> list[bytes]:
        """Returns what it asks of the cabinets at a second, after other requests."""


@dataclass
class Steps:
    """How a run is cut into steps: how many there are, and how many ticks each has."""

    count: int
    ticks: int

    @property
    def seconds(self) -> float:
        """Returns how long the run is."""
        return self.count * self.ticks / 10

    def place(self, at: float) -> int:
        """Returns the step in which a second lies."""
        return int(at * 10 / self.ticks)


class Street:
    """All stop lines of a street, their detectors, and the vehicles on the way to them."""

    def __init__(self, volumes: Volumes, demand: Demand, steps: Steps) -> None:
        self.flows, self.demand, self.steps = volumes.flows, demand, steps
        self.size = steps.ticks / 10
        self.lines = [StopLine(it.lanes, it.saturation) for it in self.flows]
        self.places = {(it.cabinet, it.name): place for place, it in enumerate(self.flows)}
        self.passages: Passages = [[] for _ in demand.vehicles]
        self.reached: list[list[Reached]] = [[] for _ in range(steps.count + 1)]
        self.passing: list[list[tuple[float, int]]] = [[] for _ in range(steps.count + 1)]
        self.detectors: dict[tuple[int, int], PhaseDetectors] = {}
        self.by_phase: dict[tuple[int, int], list[int]] = {}
        for place, it in enumerate(self.flows):
            key = (it.cabinet, it.phase)
            self.detectors.setdefault(key, PhaseDetectors(*key)).watch(it, self.lines[place])
            if not (it.phase in it.permitted and gives_way(it)):
                self.by_phase.setdefault(key, []).append(place)
        self.held = [0] * len(self.flows)
        """How many vehicles from the stop lines before are on the way to each line, or wait there."""
        self.limited = {place for place, it in enumerate(self.flows) if next_is_limited(volumes, it)}
        self.foes: dict[int, Foe] = {}
        self.yields: dict[int, YieldLine] = {}
        self.windows: dict[tuple[int, int], list[YieldLine]] = {}
        for place, it in enumerate(self.flows):
            if gives_way(it):
                self.let_yield(place, it)
        self.seers = [self.detectors[it.cabinet, it.phase] for it in self.flows]
        for number, vehicle in enumerate(demand.vehicles):
            self.sent(vehicle.entry, vehicle.way.flows[0], number, 0)
        self.presses = presses(volumes, demand, steps)

    def sent(self, at: float, place: int, vehicle: int, now: int) -> None:
        """Puts a vehicle on its way: in which step it reaches a stop line, and drives over the detector ahead of it."""
        step = self.steps.place(at)
        if place in self.foes:
            heapq.heappush(self.foes[place].coming, at)
        if step > self.steps.count:
            return
        self.reached[max(step, now)].append((at, place, vehicle))
        ahead = self.flows[place].detectors.ahead
        if ahead:
            over = max(at - ahead, 0.0)
            self.passing[max(self.steps.place(over), now)].append((over, place))

    def waiting(self, cabinet: int, movement: str) -> int:
        """Returns how many vehicles wait at a movement."""
        return len(self.lines[self.places[cabinet, movement]].queue)

    def run(
        self, cabinets: Cabinets, signals: Signals, advance: Callable[[int], None], policy: Acts | None = None
    ) -> None:
        """Runs all steps; `advance` is called with each of them, a policy may act before each."""
        signals.shown(cabinets.shown)
        if policy is not None:
            policy.heard(cabinets.shown)
        for step in range(self.steps.count):
            requests = self.requests(step)
            if policy is not None:
                requests += policy.requests(round(step * self.size, 1), requests)
            lines = cabinets.step(requests, self.steps.ticks)
            if policy is not None:
                policy.heard(lines)
            self.follow(step, signals.shown(lines))
            advance(step)

    def requests(self, step: int) -> list[bytes]:
        """Returns the requests to cabinets before a step: push buttons, then detectors that have changed."""
        requests, now = self.presses[step], step * self.size
        for it in self.detectors.values():
            if it.is_awake:
                it.told(now, requests)
        return requests

    def follow(self, step: int, changes: list[Change]) -> None:
        """Moves vehicles through a step in which signals have changed."""
        self.arrive(step)
        for change in changes:
            self.turn(change, step)
        self.discharge(step, step * self.size + self.size)

    def arrive(self, step: int) -> None:
        """Takes the vehicles that reach a stop line, or drive over the detector ahead of it, in a step."""
        came = self.reached[step]
        if len(came) > 1:
            came.sort()
        for at, place, vehicle in came:
            self.lines[place].queue.append((at, vehicle))
            self.seers[place].is_awake = True
        for at, place in self.passing[step]:
            self.seers[place].drove(at, self.flows[place].detectors.occupied)

    def let_yield(self, place: int, flow: Flow) -> None:
        """Makes what a movement has that gives way: to whom, and in which greens. A turn on red may always be, but in
        its own green."""
        to = [other for other, it in enumerate(self.flows) if it.cabinet == flow.cabinet and it.name in yields_to(flow)]
        foes = [self.foes.setdefault(other, Foe(self.lines[other])) for other in to]
        lanes = max((self.flows[other].lanes for other in to), default=1)
        own = self.yields[place] = YieldLine(self.lines[place], foes, gaps_of(flow, lanes))
        if flow.yielding.on_red:
            own.opens(0.0)
        for phase in flow.permitted:
            self.windows.setdefault((flow.cabinet, phase), []).append(own)

    def turn(self, change: Change, step: int) -> None:
        """Opens or closes the stop lines of a phase."""
        for it in self.windows.get((change.cabinet, change.phase), ()):
            if change.is_green:
                it.opens(change.at)
            else:
                it.closes(change.at)
        for place in self.by_phase.get((change.cabinet, change.phase), ()):
            line = self.lines[place]
            if change.is_green:
                self.passed(place, step, change.at)
                line.opens(change.at)
            else:
                line.closes(change.at)

    def discharge(self, step: int, until: float) -> None:
        """Lets vehicles pass all stop lines that are open; movements that yield come after the others."""
        for place, line in enumerate(self.lines):
            if line.queue and line.open_until >= until - self.size:
                self.passed(place, step, until)
        for place, it in self.yields.items():
            if it.open_from is not None:
                self.moved(place, step, it.passed(until, self.has_room))

    def has_room(self, vehicle: int) -> bool:
        """Tells whether there is room for a vehicle before the next stop line on its way."""
        way, at = self.demand.vehicles[vehicle].way.flows, len(self.passages[vehicle]) + 1
        storage = self.flows[way[at]].storage if at < len(way) else None
        return storage is None or self.held[way[at]] < storage

    def passed(self, place: int, step: int, until: float) -> None:
        """Lets vehicles pass one stop line, and sends them on."""
        if place not in self.limited:
            self.moved(place, step, self.lines[place].discharged(until))
            return
        while one := self.lines[place].discharged(until, self.has_room, 1):
            self.moved(place, step, one)

    def moved(self, place: int, step: int, passed: Iterable[Passed]) -> None:
        """Sends vehicles that pass a stop line to the next."""
        flow, seer = self.flows[place], self.seers[place]
        foe = self.foes.get(place)
        for vehicle, arrived, released in passed:
            seer.is_awake = True
            if foe is not None:
                foe.lately.append(released)
            if flow.detectors.stop:
                seer.drove(released, flow.detectors.occupied)
            told = self.passages[vehicle]
            if told:
                self.held[place] -= 1
            told.append((arrived, released))
            way, travels = self.demand.vehicles[vehicle].way, self.demand.vehicles[vehicle].travels
            if len(told) < len(way.flows):
                self.held[way.flows[len(told)]] += 1
                self.sent(released + travels[len(told) - 1], way.flows[len(told)], vehicle, step + 1)


def presses(volumes: Volumes, demand: Demand, steps: Steps) -> list[list[bytes]]:
    """Returns the push buttons that are pressed before each step: by persons who came in the step before."""
    found: list[list[bytes]] = [[] for _ in range(steps.count)]
    for it in demand.persons:
        step = steps.place(it.at) + 1
        if step < steps.count:
            crossing = volumes.crossings[it.crossing]
            press = b"ped %d %d" % (crossing.cabinet, crossing.phase)
            if press not in found[step]:
                found[step].append(press)
    return found


def next_is_limited(volumes: Volumes, flow: Flow) -> bool:
    """Tells whether a movement leads to an approach of which some movement has a limited storage."""
    to = flow.onward
    return to is not None and any(
        it.storage is not None and (it.cabinet, it.approach) == (to.cabinet, to.approach) for it in volumes.flows
    )
