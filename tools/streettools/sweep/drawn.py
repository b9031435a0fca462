"""What a seed draws: vehicles and people that come, and messages that are lost. The same seed gives the same on
every machine."""

import functools
import itertools
import json
import math
import random
from collections import defaultdict
from collections.abc import Iterator
from dataclasses import dataclass
from typing import Any

from ..shared.given import NUMBER, Given, is_of
from .sensed import Stream

WAYS, STREAMS = ("down", "up"), ("poll", "load")


def check_traffic(given: Given) -> None:
    """Refuses a table `traffic` that can't be read."""
    given.within("factor", NUMBER, 0, 1000)
    given.within("occupied", NUMBER, 0.1, 3600)
    given.take("keep", bool)
    given.each("flow", check_flow)
    given.end()


def check_flow(given: Given) -> None:
    """Refuses a flow that can't be read."""
    for name, most in (("cabinet", 64), ("phase", 16)):
        numbers = each(given.need(name, (int, list)))
        if not all(is_of(it, int) and 1 <= it <= most for it in numbers):
            raise given.refuse(name, f"has to be a number from 1 to {most}, or a list of such")
    given.within(given.only(("vehicles", "pedestrians")), NUMBER, 0, 3600)


def check_line(given: Given) -> None:
    """Refuses a table `line` that can't be read."""
    given.within("lose", NUMBER, 0, 1)
    for name, known in (("ways", WAYS), ("streams", STREAMS)):
        if not all(it in known for it in given.take(name, list, [])):
            raise given.refuse(name, f"has to be a list out of {', '.join(known)}")
    given.end()


def each(value: Any) -> list[Any]:
    """Returns a list, or a value as a list of one."""
    return value if isinstance(value, list) else [value]


def arrivals(draw: random.Random, per_hour: float, seconds: float) -> list[float]:
    """Returns the seconds of random arrivals, by their number an hour on average (a Poisson process)."""
    found: list[float] = []
    if per_hour <= 0:
        return found
    at, log, chance = 0.0, math.log, draw.random
    while (at := at - log(1 - chance()) * 3600 / per_hour) < seconds:
        found.append(at)
    return found


def vehicles(draw: random.Random, per_hour: float, occupied: int, rounds: int, seconds: float) -> list[int]:
    """Returns the rounds at which a detector turns on and off in turn. Vehicles that come while it is on keep it on."""
    found: list[int] = []
    off = 0
    for at in arrivals(draw, per_hour, rounds * seconds):
        number = 1 + int(at / seconds)
        if number > off:
            found += (off, number)
        off = number + occupied
    return found[1:] + [off] if 0 < off <= rounds else found[1:]


def flow(
    row: dict[str, Any], seed: int, place: int, traffic: dict[str, Any], rounds: int, seconds: float
) -> Iterator[Stream]:
    """Yields the inputs of a row of the traffic. Each cabinet and phase has draws of its own."""
    factor = traffic.get("factor", 1)
    occupied = max(1, math.ceil(traffic.get("occupied", 1) / seconds - 1e-9))
    for cabinet in each(row["cabinet"]):
        for phase in each(row["phase"]):
            draw = random.Random(f"{seed}/{place}/{cabinet}/{phase}")
            if "pedestrians" in row:
                times = arrivals(draw, factor * row["pedestrians"], rounds * seconds)
                yield Stream(cabinet, "ped", phase, [1 + int(at / seconds) for at in times])
            else:
                found = vehicles(draw, factor * row["vehicles"], occupied, rounds, seconds)
                yield Stream(cabinet, "veh", phase, found, (bytearray(b"\1\0") * len(found))[: len(found)])


def words_of(stream: Stream) -> Iterator[str]:
    """Yields the inputs of a stream as JSON, in the order of their rounds."""
    cabinet, phase = json.dumps(stream.cabinet), json.dumps(stream.phase)
    if stream.kind == "ped":
        return (f'{{"cabinet":{cabinet},"ped":{phase},"round":{number}}}' for number in stream.rounds)
    begins = [f'{{"cabinet":{cabinet},"on":{on},"round":' for on in ("true", "false")]
    end = f',"veh":{phase}}}'
    return (f"{begin}{number}{end}" for number, begin in zip(stream.rounds, itertools.cycle(begins)))


def in_order(streams: list[Stream]) -> list[str]:
    """Returns all inputs by their rounds and cabinets; those of one round and cabinet keep their order."""
    found: dict[int, list[str]] = defaultdict(list)
    for it in sorted(streams, key=lambda it: it.cabinet):
        for number, word in zip(it.rounds, words_of(it)):
            found[number].append(word)
    return [word for number in sorted(found) for word in found[number]]


@dataclass(frozen=True)
class Drawn:
    """The inputs that traffic gives by a seed: as JSON without its brackets, and by cabinet and phase."""

    text: str
    streams: tuple[Stream, ...]

    def values(self) -> tuple[dict[str, Any], ...]:
        """Returns the inputs as the scenario has them."""
        return tuple(json.loads(f"[{self.text}]"))


@functools.lru_cache(maxsize=64)
def inputs_of(traffic: str, seed: int, rounds: int, ticks: int) -> Drawn:
    """Returns the inputs that the traffic gives by a seed."""
    table = json.loads(traffic)
    rows = enumerate(table.get("flow", ()))
    found = [it for place, row in rows for it in flow(row, seed, place, table, rounds, ticks / 10)]
    return Drawn(",".join(in_order(found)), tuple(found))


@functools.lru_cache(maxsize=64)
def faults_of(line: str, seed: int, rounds: int, cabinets: int) -> tuple[dict[str, Any], ...]:
    """Returns the messages that are lost by a seed: of each round, cabinet, stream and way the first."""
    table, draw = json.loads(line), random.Random(f"{seed}/line")
    share = table.get("lose", 0)
    places = ((number, cabinet, stream, way) for number in range(1, rounds + 1) for cabinet in range(1, cabinets + 1)
              for stream in table.get("streams", STREAMS) for way in table.get("ways", WAYS))  # fmt: skip
    return tuple(
        {"cabinet": cabinet, "index": 0, "kind": "lose", "round": number, "stream": stream, "way": way}
        for number, cabinet, stream, way in places
        if draw.random() < share
    )
