"""Frames of other software: commands, reads, downloads, and octets that aren't a message."""

from random import Random

from model.cells import Cell
from model.drawn.cabinets import Drawn, draw_cells
from model.drawn.structures import STANDARD, CellList, time_cells
from model.messages import Bind, Message, Pdu, Value, write
from model.names import NAMES, OWN, READABLE, Index, Oid, Scalar, is_readable, oid_of_cell
from model.priority import Request
from model.master import request_binds
from model.shapes import cell

ODD_NAMES: list[Oid] = [
    OWN,
    OWN + (1, 2, 0),
    (1, 3),
    (2, 39),
    (0, 0),
    OWN + (4, 3, 1, 10),
    OWN + (9,) * 20,
    (1, 3, 6, 1, 4, 1, 1206, 4, 2, 1),
]


TELLING: list[Oid] = [oid for oid, name in NAMES.items() if is_readable(oid) and not isinstance(name, (Cell, Index))]
"""The names of what a cabinet shows: states of requests, groups of phases, clock, counter, mode, outcomes."""


def octets_of(draw: Random, pdu: Pdu, binds: list[Bind], community: bytes) -> bytes:
    """Returns a message's octets, now and then of another community or with odd numbers."""
    said = community if draw.random() < 0.97 else draw.choice([b"", b"private", b"x" * 32])
    status = draw.choice([0, 0, 0, 0, 5, -1])
    return write(Message(said, pdu, draw.choice([1, 7, -1, 2**31 - 1, draw.randrange(10_000)]), status, 0, binds))


def command_binds(draw: Random, drawn: Drawn) -> list[Bind]:
    """Draws a Set of the pattern, the clock, a priority request or a cancel; at times of several."""

    def one() -> list[Bind]:
        kind = draw.randrange(10)
        if kind < 4:
            return [
                Bind(
                    Scalar.PATTERN_CONTROL.value,
                    draw.choice([0, 254, 255, 256, -1, 5, *drawn.patterns, *drawn.patterns]),
                )
            ]
        if kind < 6:
            return [Bind(Scalar.CLOCK.value, draw.choice([0, 863_999, 864_000, 863_800, draw.randrange(3000)]))]
        if kind < 9:
            return request_binds(request(draw, drawn))
        return request_binds(draw.choice([1, 2, 10, 11, 0]))

    return [bind for _ in range(draw.choice([1, 1, 1, 2, 3])) for bind in one()]


def request(draw: Random, drawn: Drawn) -> Request:
    """Draws a priority request."""
    arrival = draw.choice([0, 5, 60])
    numbers = (draw.choice([1, 1, 2, 3, 10]) for _ in range(3))
    phases = drawn.made.phases
    return Request(
        *numbers, draw.choice([*phases, *phases, 16]), arrival, arrival + draw.choice([0, 10, 100, 600, 60_000])
    )


def any_value(draw: Random) -> Value:
    """Draws a value of any kind."""
    return draw.choice(
        [0, 1, -1, 255, 2**31 - 1, -(2**31), b"", b"\x02\x06", b"\x01" * 8, b"x" * 64, None, (1, 3, 6)]
    )


def name_near(draw: Random) -> Oid:
    """Draws a readable name, one next to it, or an odd one."""
    oid = draw.choice(READABLE)
    changes = [
        oid,
        oid,
        oid,
        oid[:-1],
        (*oid, 0),
        (*oid[:-1], oid[-1] + 1),
        draw.choice(ODD_NAMES),
        draw.choice(list(NAMES)),
    ]
    return draw.choice(changes)


def read_frame(draw: Random, community: bytes) -> bytes:
    """Draws a Get or a GetNext of some names, often of those with the most information on a cabinet."""
    if draw.random() < 0.6:
        return octets_of(draw, Pdu.GET, [Bind(oid, None) for oid in draw.sample(TELLING, 32)], community)
    count = draw.choice([0, 1, 1, 2, 8, 32])
    binds = [Bind(draw.choice(READABLE) if draw.random() < 0.7 else name_near(draw), None) for _ in range(count)]
    return octets_of(draw, draw.choice([Pdu.GET, Pdu.NEXT]), binds, community)


def load_binds(draw: Random, drawn: Drawn, load: int) -> list[Bind]:
    """Draws a call of the download stage."""
    named = Bind(Scalar.ID.value, load)
    kind = draw.randrange(8)
    if kind < 2:
        return [Bind(Scalar.BEGIN.value, load)]
    if kind < 5:
        cells = draw.sample(load_cells(draw, drawn), 3)
        pairs = [(oid_of_cell(it), value) for it, value in (cell(one, "cell") for one in cells)]
        return [named, Bind(Scalar.PART.value, draw.choice([1, 1, 2, 3])), *(Bind(oid, value) for oid, value in pairs)]
    if kind < 6:
        return [named, Bind(Scalar.TOTAL.value, draw.choice([0, 1, 1, 2]))]
    return [named, Bind(Scalar.FINISH.value, draw.choice([1, 1, 1, 2]))]


def load_cells(draw: Random, drawn: Drawn) -> list[CellList]:
    """Draws the cells of a download: times of phases, or new values for all cells of a cabinet of this structure
    (sometimes of the standard one)."""
    made = drawn.made if draw.random() < 0.9 else STANDARD
    if draw.random() < 0.5:
        return time_cells(draw, made)
    return draw_cells(draw, "std8", made, drawn.patterns, drawn.preempts)[1]


def frame(draw: Random, drawn: Drawn, community: bytes, load: int) -> bytes:
    """Draws a frame for a cabinet."""
    kind = draw.random()
    if kind < 0.35:
        octets = octets_of(draw, Pdu.SET, command_binds(draw, drawn), community)
    elif kind < 0.5:
        octets = octets_of(draw, Pdu.SET, load_binds(draw, drawn, load), community)
    elif kind < 0.85:
        octets = read_frame(draw, community)
    else:
        binds = [Bind(name_near(draw), any_value(draw)) for _ in range(draw.choice([0, 1, 2, 3]))]
        octets = octets_of(draw, draw.choice([Pdu.SET, Pdu.SET, Pdu.RESPONSE, Pdu.GET]), binds, community)
    return damaged(draw, octets)[:1472] if draw.random() < 0.12 else octets[:1472]


def damaged(draw: Random, octets: bytes) -> bytes:
    """Returns octets with one changed, cut, or with some after them."""
    at = draw.randrange(len(octets))
    return draw.choice(
        [
            octets[:at],
            octets[:at] + bytes((draw.randrange(256),)) + octets[at + 1 :],
            octets + b"\0",
            octets[at:],
            draw.randbytes(at),
        ]
    )
