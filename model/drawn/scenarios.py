"""A drawn scenario, as the object that its text says."""

from random import Random
from typing import Any

from model.drawn.cabinets import Drawn, cabinet
from model.drawn.frames import frame, load_cells, request

STREAMS = ["poll", "load", "priority"]


class Street:
    """What the items of a scenario are drawn for."""

    def __init__(self, draw: Random, rounds: int, cabinets: list[Drawn], community: bytes) -> None:
        self.draw = draw
        self.rounds = rounds
        self.cabinets = cabinets
        self.community = community

    def place(self) -> dict[str, Any]:
        """Draws a round and a cabinet."""
        return {"round": self.draw.randint(1, self.rounds), "cabinet": self.draw.randint(1, len(self.cabinets))}

    def at(self, place: dict[str, Any]) -> Drawn:
        """Returns the cabinet of a place."""
        return self.cabinets[place["cabinet"] - 1]

    def input(self) -> dict[str, Any]:
        """Draws an input."""
        place, draw = self.place(), self.draw
        drawn = self.at(place)
        kind = draw.random()
        if kind < 0.6:
            return place | {"veh": draw.choice([*drawn.made.phases, draw.randint(1, 16)]), "on": draw.random() < 0.55}
        if kind < 0.8:
            return place | {"ped": draw.choice([*drawn.made.phases, draw.randint(1, 16)])}
        return place | {"preempt": draw.choice(drawn.preempts or [draw.randint(1, 8)]), "on": draw.random() < 0.5}

    def pulses(self) -> list[dict[str, Any]]:
        """Draws inputs that go off soon after they went on: of detectors and of preempts."""
        draw, inputs = self.draw, []
        for _ in range(draw.choice([0, 1, 3, 8])):
            place = self.place()
            drawn = self.at(place)
            last = min(self.rounds, place["round"] + draw.choice([1, 2, 5, 20]))
            told = {"veh": draw.choice(drawn.made.phases)}
            if drawn.preempts and draw.random() < 0.4:
                told = {"preempt": draw.choice(drawn.preempts)}
            inputs += [place | told | {"on": True}, place | told | {"round": last, "on": False}]
        return inputs

    def load(self) -> dict[str, Any]:
        """Draws a download."""
        place = self.place()
        cells = load_cells(self.draw, self.at(place))
        size = self.draw.choice([1, 3, 24, 25, 49, len(cells)])
        return place | {"cells": cells if size >= len(cells) else self.draw.sample(cells, size)}

    def priority(self) -> dict[str, Any]:
        """Draws a priority request or a cancel."""
        place = self.place()
        if self.draw.random() < 0.2:
            return place | {"cancel": self.draw.choice([1, 2, 3, 10])}
        it = request(self.draw, self.at(place))
        return place | {
            "number": it.number,
            "class": it.klass,
            "level": it.level,
            "phase": it.phase,
            "arrival": it.arrival,
            "departure": min(it.departure, 65_535),
        }

    def frame(self) -> dict[str, Any]:
        """Draws a frame."""
        place, draw = self.place(), self.draw
        octets = frame(draw, self.at(place), self.community, draw.choice([1, 2, 3, 9]))
        return place | {
            "stream": draw.choice(STREAMS),
            "hex": octets.hex() if draw.random() < 0.9 else octets.hex().upper(),
        }

    def fault(self) -> dict[str, Any]:
        """Draws a fault of the line."""
        draw = self.draw
        told = {"stream": draw.choice(STREAMS), "way": draw.choice(["down", "up"])}
        told["kind"] = draw.choice(["lose", "lose", "repeat", "late", "flip", "cut"])
        more = {
            "index": draw.choice([0, 0, 1, 2]),
            "by": draw.choice([0, 1, 2, 5, 20, 40, 60]),
            "octet": draw.choice([1, 2, 64, 255]),
        }
        return self.place() | told | {name: value for name, value in more.items() if draw.random() < 0.6}

    def some(self, one: Any, most: int) -> list[Any]:
        """Draws a list of items."""
        return [one() for _ in range(self.draw.choice([0, self.draw.randint(0, most), most]))]


def master(draw: Random, street: Street, clock: int) -> dict[str, Any]:
    """Draws what the master does."""
    patterns = [n for it in street.cabinets for n in it.patterns] or [1]
    seconds = [0, 86_399, *(max(0, min(86_399, clock // 10 + n)) for n in (0, 1, 5, 20, -3))]
    schedule = [
        {
            "second": draw.choice(seconds),
            "section": draw.choice([1, 1, 2, 8]),
            "pattern": draw.choice([0, 254, 255, 9, *2 * patterns]),
        }
        for _ in range(draw.choice([0, 1, 2, 4]))
    ]
    told = {
        "clock": clock,
        "poll_every": draw.choice([0, 1, 3]),
        "clock_every": draw.choice([0, 0, 2, 9]),
        "pattern_every": draw.choice([0, 0, 1, 7]),
        "retries": draw.choice([1, 2, 3, 10]),
        "schedule": schedule,
    }
    return {name: value for name, value in told.items() if draw.random() < 0.85}


def length(draw: Random) -> tuple[int, int]:
    """Draws rounds and ticks: mostly short runs, now and then over several cycles, seldom so long that a clock
    drifts."""
    ticks = draw.choice([1, 2, 5, 10, 10, 20, 60, 100])
    whole = 12_600 if draw.random() < 0.008 else draw.choice([70, 120, 200, 200, 400, 400, 900, 900, 2500])
    return max(1, whole // ticks), ticks


def scenario(draw: Random, most_ticks: int = 1 << 20) -> dict[str, Any]:
    """Draws a scenario."""
    return with_street(draw, most_ticks)[0]


def with_street(draw: Random, most_ticks: int) -> tuple[dict[str, Any], Street]:
    """Draws a scenario, and returns it with what its items are drawn for."""
    version = draw.choice([1, 2])
    rounds, ticks = length(draw)
    rounds = max(1, min(rounds, most_ticks // ticks))
    cabinets = [cabinet(draw, version) for _ in range(draw.choice([1, 1, 1, 1, 2, 3]))]
    community = draw.choice(["public", "public", 'q" \\ ~'])
    street = Street(draw, rounds, cabinets, community.encode())
    told: dict[str, Any] = {
        "version": version,
        "rounds": rounds,
        "ticks": ticks,
        "cabinets": [it.value for it in cabinets],
    }
    if community != "public":
        told["community"] = community
    if draw.random() < 0.7:
        told["master"] = master(draw, street, draw.choice([0, 863_950, cabinets[0].value["clock"]]))
    many = max(2, min(150, rounds * ticks // draw.choice([3, 8, 20])))
    lists = {
        "inputs": street.some(street.input, many) + street.pulses(),
        "loads": street.some(street.load, 3),
        "priority": street.some(street.priority, 8),
        "frames": street.some(street.frame, draw.choice([4, 16, 40])),
        "faults": street.some(street.fault, 12),
    }
    return told | {name: items for name, items in lists.items() if items}, street
