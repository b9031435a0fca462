"""Persons who wait at crossings, and the push buttons that they press."""

from collections.abc import Iterator
from typing import Any, NamedTuple

from .drive import call
from .mapping import Map
from .network import Network, edge_of
from .signals import Signals

STANDING = 0.1
"""A person who is slower than this, in metres a second, stands."""


class Waiting(NamedTuple):
    """A person who waits: since when, and whether there was walk then."""

    since: float
    on_walk: bool


class Crossed(NamedTuple):
    """A person who arrived at a crossing and went over it; `released` is None if the run ended before."""

    person: str
    cabinet: int
    movement: str
    phase: int
    arrived: float
    released: float | None
    on_walk: bool
    stood: bool


class Crossing(NamedTuple):
    """A crossing with a signal: its cabinet, movement and phase, its edge, the areas from which persons come."""

    cabinet: int
    movement: str
    phase: int
    edge: str
    areas: tuple[str, ...]


class Buttons:
    """The push buttons of all crossings. A person who waits there without walk presses a button, and not again until
    walk has begun."""

    def __init__(self, street: Map, network: Network, sumo: Any) -> None:
        known = set(sumo.edge.getIDList())
        self.count = call(sumo, "person", "getIDCount")
        self.crossings: list[Crossing] = []
        self.pressed: set[tuple[int, int]] = set()
        self.there: dict[tuple[str, str], Waiting] = {}
        self.stood: set[tuple[str, str]] = set()
        self.crossed: list[Crossed] = []
        for signal in street.signals:
            links = {link.name: link for link in network.links[signal.id]}
            for movement in (it for it in signal.movements if it.walk):
                for link in (links[name] for name in movement.links):
                    near = tuple(sorted(it for it in known if it.startswith(f":{link.junction}_w")))
                    assert movement.phase is not None, "a crossing has a phase"
                    edge = edge_of(link.end)
                    self.crossings.append(Crossing(signal.cabinet, movement.name, movement.phase, edge, near))
        self.areas = sorted({area for it in self.crossings for area in it.areas})

    def look(self, sumo: Any, signals: Signals, second: float) -> Iterator[bytes]:
        """Yields the requests of buttons that are pressed, and keeps the persons who wait and those who go."""
        if not self.there and not self.count():
            self.pressed.clear()
            return
        coming: dict[str, list[str]] = {}
        for area in self.areas:
            for person in sumo.edge.getLastStepPersonIDs(area):
                coming.setdefault(sumo.person.getNextEdge(person), []).append(person)
        for crossing in self.crossings:
            walks = signals.walks(crossing.cabinet, crossing.phase)
            key = (crossing.cabinet, crossing.phase)
            if walks:
                self.pressed.discard(key)
            for person in coming.get(crossing.edge, ()):
                self.there.setdefault((person, crossing.edge), Waiting(second, walks))
                if sumo.person.getSpeed(person) < STANDING:
                    self.stood.add((person, crossing.edge))
                    if not walks and key not in self.pressed:
                        self.pressed.add(key)
                        yield b"ped %d %d" % key
            self.leave(crossing, set(coming.get(crossing.edge, ())), second)

    def leave(self, crossing: Crossing, here: set[str], second: float) -> None:
        """Keeps the persons who have gone over a crossing since the last look."""
        for person, edge in [key for key in self.there if key[1] == crossing.edge and key[0] not in here]:
            self.close(crossing, person, second)

    def close(self, crossing: Crossing, person: str, released: float | None) -> None:
        """Keeps a person who no longer waits."""
        waiting = self.there.pop((person, crossing.edge))
        stood = (person, crossing.edge) in self.stood
        self.stood.discard((person, crossing.edge))
        row = crossing.cabinet, crossing.movement, crossing.phase
        self.crossed.append(Crossed(person, *row, waiting.since, released, waiting.on_walk, stood))

    def end(self) -> None:
        """Keeps the persons who still wait at the end."""
        for crossing in self.crossings:
            for person, edge in list(self.there):
                if edge == crossing.edge:
                    self.close(crossing, person, None)
