"""The signals of SUMO by what the cabinets show, and the watch over paths that cross."""

from collections.abc import Callable, Iterable
from typing import Any, NamedTuple

from .drive import call
from .faults import Conflict
from .mapping import Map, MappedMovement, MappedSignal
from .network import Link, Network
from .overlaps import OverlapLight

COLOUR = {"G": "G", "Y": "y", "C": "r", "R": "r"}
"""SUMO's letters for colours: red clearance is red to a driver."""
YIELDING_COLOUR = {"G": "g", "Y": "y", "C": "r", "R": "r"}
GREEN = "Gg"
RED = "rR"
YIELDING = "gy"
"""Letters of links that give way; for the watch, `Y` is the yellow after a green with the right of way."""
MayYield = Callable[[Link, Link], bool]
"""Tells whether a link may have a green that yields while another has the right of way."""


class Light:
    """A signal of SUMO, and what it shows."""

    def __init__(self, signal: MappedSignal, network: Network) -> None:
        self.id = signal.id
        self.state = ""
        self.overlaps = {it.name: OverlapLight(it.overlap) for it in signal.movements if it.overlap}
        places = {link.name: link.index for link in network.links[signal.id]}
        self.parts: list[tuple[MappedMovement, list[int]]] = [
            (it, [places[name] for name in it.links]) for it in signal.movements
        ]
        self.size = 1 + max(places.values())
        self.known: dict[tuple[str, ...], str] = {}

    def letter(self, movement: MappedMovement, vehicles: str, walks: str, overlaps: dict[str, str]) -> str:
        """Returns SUMO's letter for a movement."""
        if movement.phase is None:
            shown = overlaps[movement.name]
        elif movement.walk:
            return "G" if walks[movement.phase - 1] == "W" else "r"
        else:
            shown = vehicles[movement.phase - 1]
        letter = (YIELDING_COLOUR if movement.yields else COLOUR)[shown]
        if letter == "r" and movement.permissive is not None:
            return YIELDING_COLOUR[vehicles[movement.permissive - 1]]
        return letter

    def wanted(self, vehicles: str, walks: str, tick: int) -> str:
        """Returns the state of all links at a tick."""
        overlaps = {name: it.at(tick) for name, it in self.overlaps.items()}
        key = (vehicles, walks, *overlaps.values())
        if key not in self.known:
            letters = ["r"] * self.size
            for movement, places in self.parts:
                for place in places:
                    letters[place] = self.letter(movement, vehicles, walks, overlaps)
            self.known[key] = "".join(letters)
        return self.known[key]


class Crossing(NamedTuple):
    """Two links whose paths cross, and which of them may yield (`g` to SUMO) when both have a green, if any."""

    a: Link
    b: Link
    a_yields: bool
    b_yields: bool


class Watch:
    """The look for two links whose paths cross and that both have a green, by what SUMO has in force. A link may yield
    to another only if SUMO lets it give way there, and if it has a phase under which it yields that may be on along
    with one of the other's (`may_yield`). Yellow yields as the green before it did."""

    def __init__(self, network: Network, signals: Iterable[str], may_yield: MayYield, sumo: Any) -> None:
        self.state_of = call(sumo, "trafficlight", "getRedYellowGreenState")
        self.crossing: dict[str, list[Crossing]] = {name: [] for name in signals}
        for name, rows in self.crossing.items():
            for a, b in network.conflicts(name):
                a_yields = network.gives_way(a, b) and may_yield(a, b)
                b_yields = network.gives_way(b, a) and may_yield(b, a)
                rows.append(Crossing(a, b, a_yields, b_yields))
        self.sound: dict[str, set[str]] = {name: set() for name in self.crossing}
        self.last = dict.fromkeys(self.crossing, "")
        self.states: list[str] = []
        """What all signals had in force at the last look."""
        self.judged: dict[str, str] = {}
        """What each signal has in force, with `Y` for the yellow after a green with the right of way."""
        self.history: dict[str, list[tuple[float, str]]] = {name: [] for name in self.crossing}

    def look(self, second: float) -> None:
        """Looks at all signals; a conflict is raised. What changed is kept."""
        states = list(map(self.state_of, self.last))
        if states == self.states:
            return
        self.states = states
        for name, state in zip(self.last, states):
            if state != self.last[name]:
                self.last[name] = state
                self.history[name].append((second, state))
                judged = behind(self.judged.get(name, state), state)
                self.judged[name] = judged
                if judged not in self.sound[name]:
                    self.judge(name, judged, second)

    def judge(self, name: str, state: str, second: float) -> None:
        """Raises Fault if a state has a conflict."""
        for a, b, a_yields, b_yields in self.crossing[name]:
            one, other = state[a.index], state[b.index]
            if one in RED or other in RED or one in YIELDING and a_yields or other in YIELDING and b_yields:
                continue
            raise Conflict(
                f"second {second:.1f}: signal {name} shows {self.last[name]}: links {a.index} ({a.name}) and {b.index}"
                f" ({b.name}) cross, and both have way"
            )
        self.sound[name].add(state)


def behind(before: str, state: str) -> str:
    """Returns a state with `Y` for each yellow after a green with the right of way."""
    return "".join("Y" if now == "y" and was in "GY" else now for was, now in zip(before, state))


class Signals:
    """All signals that cabinets have."""

    def __init__(self, street: Map, network: Network) -> None:
        self.lights: dict[int, list[Light]] = {}
        for signal in street.signals:
            self.lights.setdefault(signal.cabinet, []).append(Light(signal, network))
        self.shown: dict[int, tuple[str, str]] = {}
        self.always = [(cabinet, it) for cabinet, lights in self.lights.items() for it in lights if it.overlaps]

    def take(self, lines: list[bytes]) -> set[int]:
        """Takes the F lines of an answer; returns the cabinets that have changed."""
        changed = set()
        for line in lines:
            if line[:2] == b"F ":
                _, cabinet, tick, vehicles, walks, _ = line.decode("ascii").split(" ", 5)
                number = int(cabinet)
                self.shown[number] = vehicles, walks
                changed.add(number)
                for light in self.lights[number]:
                    for overlap in light.overlaps.values():
                        overlap.changed(int(tick), vehicles)
        return changed

    def show(self, sumo: Any, lines: list[bytes], tick: int) -> None:
        """Sets the signals to what the cabinets show at a tick, after the answer to it."""
        changed = self.take(lines)
        due = [(cabinet, light) for cabinet in changed for light in self.lights[cabinet]]
        due += [it for it in self.always if it[0] not in changed]
        for cabinet, light in due:
            state = light.wanted(*self.shown[cabinet], tick)
            if state != light.state:
                light.state = state
                sumo.trafficlight.setRedYellowGreenState(light.id, state)

    def walks(self, cabinet: int, phase: int) -> bool:
        """Tells whether a phase shows walk."""
        return self.shown[cabinet][1][phase - 1] == "W"
