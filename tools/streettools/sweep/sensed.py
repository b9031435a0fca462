"""The inputs from the street in a run: the inputs of each phase of a cabinet, by their ticks."""

from collections.abc import Iterable, Sequence
from dataclasses import dataclass, field
from typing import Any


@dataclass(slots=True)
class Detector:
    """A phase's vehicle inputs: the ticks after which they come, in rising order, and 1 for on, 0 for off. `place` is
    how many were taken."""

    ticks: Sequence[int] = ()
    ons: bytes = b""
    place: int = 0

    def is_occupied(self) -> bool:
        """Tells whether a vehicle is there, by the inputs that were taken."""
        return self.place > 0 and self.ons[self.place - 1] == 1

    def active(self) -> int:
        """Returns the last tick at which a vehicle was near, by the inputs that were taken; 0 if none was."""
        at = self.place - 1
        while at > 0 and not self.ons[at] and not self.ons[at - 1]:
            at -= 1
        if at < 0:
            return 0
        if self.ons[at]:
            return self.ticks[at] + 1
        return max(self.ticks[at - 1] + 1, self.ticks[at]) if at else 0


@dataclass(slots=True)
class Button:
    """The ticks after which a phase's push button is pressed, in rising order. `place` is how many were taken."""

    ticks: Sequence[int] = ()
    place: int = 0

@dataclass(slots=True)
class Stream:
    """The inputs of one kind (`veh` or `ped`) of a phase: their rounds, and for vehicles 1 for on, 0 for off."""

    cabinet: int
    kind: str
    phase: int
    rounds: list[int] = field(default_factory=list)
    ons: bytearray = field(default_factory=bytearray)


def streams_of(inputs: Iterable[dict[str, Any]]) -> list[Stream]:
    """Returns a scenario's inputs by cabinet, kind and phase; those of preempts are left out."""
    found: dict[tuple[Any, ...], Stream] = {}
    for it in inputs:
        kind = "veh" if "veh" in it else "ped" if "ped" in it else None
        if kind is None:
            continue
        key = it["cabinet"], kind, it[kind]
        if key not in found:
            found[key] = Stream(*key)
        found[key].rounds.append(it["round"])
        if kind == "veh":
            found[key].ons.append(it.get("on", True))
    return list(found.values())


def joined(streams: list[Stream]) -> Stream:
    """Returns streams of one phase as one, by their rounds; those of one round keep their order."""
    if len(streams) == 1:
        found = streams[0]
        if all(map(int.__le__, found.rounds, found.rounds[1:])):
            return found
    rounds = [number for it in streams for number in it.rounds]
    ons = [on for it in streams for on in it.ons]
    order = sorted(range(len(rounds)), key=rounds.__getitem__)
    first = streams[0]
    return Stream(
        first.cabinet,
        first.kind,
        first.phase,
        [rounds[it] for it in order],
        bytearray(ons[it] for it in order) if ons else bytearray(),
    )


class Sensed:
    """All inputs from the street in a run."""

    def __init__(self, streams: Iterable[Stream], ticks: int) -> None:
        self.ticks = ticks
        self.found: dict[tuple[int, str, int], list[Stream]] = {}
        for it in streams:
            self.found.setdefault((it.cabinet, it.kind, it.phase), []).append(it)

    def after(self, rounds: list[int]) -> list[int]:
        """Returns the ticks after which inputs of rounds come."""
        ticks = self.ticks
        return [(number - 1) * ticks for number in rounds]

    def detector(self, cabinet: int, phase: int) -> Detector:
        """Returns the vehicle inputs of a phase."""
        streams = self.found.get((cabinet, "veh", phase))
        if not streams:
            return Detector()
        one = joined(streams)
        return Detector(self.after(one.rounds), bytes(one.ons))

    def button(self, cabinet: int, phase: int) -> Button:
        """Returns the presses of a phase's push button."""
        streams = self.found.get((cabinet, "ped", phase))
        return Button(self.after(joined(streams).rounds)) if streams else Button()
