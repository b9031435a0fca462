"""The inputs from the street that are on in a session, whoever has put them on: scenario, panel, management software.

A push button has no state: it is pressed, and that is all.
"""

from collections import defaultdict
from collections.abc import Callable
from typing import Any

from ..shared.session import Answer

KINDS, REQUESTS = ("veh", "preempt"), (b"veh ", b"preempt ")
"""Vehicle detectors, by phase; inputs of preempts, by number. The requests that put them on or off begin so."""
BITS = range(8)

Key = tuple[str, int, int]
"""A kind, a cabinet, and a place of it, all from 1."""


Told = Callable[[int, int, bool, int | None], None]
"""Hears of a vehicle detector that turns on or off: cabinet, place, whether it is on, and the round that begins with
it if it is an input of the scenario."""


class Inputs:
    """The inputs that are on."""

    def __init__(self) -> None:
        self.on: set[Key] = set()
        self.given: dict[int, list[dict[str, Any]]] = {}
        self.told: Told | None = None

    def began(self, scenario: dict[str, Any]) -> None:
        """A session begins, in which nothing is on."""
        self.on, self.given = set(), defaultdict(list)
        for it in scenario.get("inputs", ()):
            self.given[it["round"]].append(it)

    def heard(self, request: bytes | None, answer: Answer) -> None:
        """Takes a request that was answered, and the scenario's own inputs as their round begins."""
        if request is not None and request.startswith(REQUESTS) and not answer:
            kind, cabinet, place, state = request.decode("ascii").split(" ")
            self.put((kind, int(cabinet), int(place)), state == "on")
        for line in answer:
            if line.startswith(b"R "):
                self.round(int(line[2:]))

    def round(self, number: int) -> None:
        """Takes the scenario's own inputs of a round."""
        for it in self.given.pop(number, ()):
            for kind in KINDS:
                if kind in it:
                    self.put((kind, it["cabinet"], it[kind]), it["on"], number)

    def put(self, key: Key, is_on: bool, number: int | None = None) -> None:
        """Puts an input on or off, as a round begins if its number is given."""
        if self.told and key[0] == KINDS[0]:
            self.told(key[1], key[2], is_on, number)
        if is_on:
            self.on.add(key)
        else:
            self.on.discard(key)

    def is_on(self, kind: str, cabinet: int, place: int) -> bool:
        """Tells whether an input is on."""
        return (kind, cabinet, place) in self.on

    def bits(self, cabinet: int, group: int) -> int:
        """Returns which vehicle detectors of a cabinet are on, as the bits of a group of eight: the first of group 0 is
        that of phase 1."""
        return sum(1 << bit for bit in BITS if self.is_on("veh", cabinet, 8 * group + bit + 1))

    def names(self) -> list[str]:
        """Returns the inputs that are on as pages name them: kind, cabinet and place."""
        return [" ".join(map(str, key)) for key in sorted(self.on)]
