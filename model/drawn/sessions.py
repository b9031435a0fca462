"""Drawn sessions: a scenario whose lists are in the order of rounds, and requests, some of which are invalid."""

from random import Random
from typing import Any

from model.drawn.hostile import text_of
from model.drawn.scenarios import Street, with_street

MOST_TICKS = 400
ODD_LINES = [
    b"",
    b" ",
    b"tick",
    b"tick 0",
    b"tick 01",
    b"tick 4294967297",
    b"tick +1",
    b"tick 1 ",
    b" tick 1",
    b"Tick 1",
    b"tick\t1",
    b"veh 1 0 on",
    b"veh 65 1 on",
    b"veh 1 1 On",
    b"veh 1 1",
    b"ped 1 17",
    b"ped 0 17",
    b"ped 1 2 on",
    b"preempt 1 9 on",
    b"preempt 1 1 ",
    b"frame 1 poll",
    b"frame 1 Poll 30",
    b"frame 1 poll 3",
    b"frame 1 poll 3g",
    b"frame 99 nowhere x",
    b"frame 1 poll " + b"00" * 1472,
    b"frame 1 poll " + b"00" * 1473,
    b"x" * 4097,
    b"? request",
    b".",
    b"\xff\xfe\x00",
]


def ordered(draw: Random, value: dict[str, Any]) -> dict[str, Any]:
    """Returns a scenario whose downloads and priority requests are mostly in the order of rounds."""
    lists = {name: sorted(value[name], key=lambda it: it["round"]) for name in ("loads", "priority") if name in value}
    return value | lists if draw.random() < 0.95 else value


def given(street: Street) -> bytes:
    """Draws an input from the street."""
    it = street.input()
    name = next(name for name in ("veh", "ped", "preempt") if name in it)
    line = b"%b %d %d" % (name.encode(), it["cabinet"], it[name])
    return line if name == "ped" else line + (b" on" if it["on"] else b" off")


def framed(street: Street) -> bytes:
    """Draws a frame."""
    it = street.frame()
    return b"frame %d %b %b" % (it["cabinet"], it["stream"].encode(), it["hex"].encode())


def request(draw: Random, street: Street) -> bytes:
    """Draws a request that takes no ticks; one of twelve is invalid."""
    kind = draw.random()
    if kind < 0.5:
        return given(street)
    return framed(street) if kind < 0.92 else draw.choice(ODD_LINES)


def requests(draw: Random, street: Street, ticks: int) -> list[bytes]:
    """Draws the requests of a session: mostly of all its rounds, at times of more or fewer."""
    lines: list[bytes] = []
    for _ in range(max(1, street.rounds + draw.choice([0, 0, 0, 1, -1, -2]))):
        left = ticks
        while left:
            lines += [request(draw, street) for _ in range(draw.choice([0, 0, 1, 1, 2, 5]))]
            count = draw.choice([left, left, 1, draw.randint(1, left)])
            lines.append(b"tick %d" % count)
            left -= count
    return lines


def session(draw: Random) -> bytes:
    """Draws the input of a session, of which the last line may lack its newline."""
    value, street = with_street(draw, MOST_TICKS)
    first = text_of(draw, ordered(draw, value)).replace(b"\n", b" ")
    rest = b"\n".join(requests(draw, street, value["ticks"]))
    return first + b"\n" + rest + draw.choice([b"\n", b"\n", b"\n", b""])
