"""Which phases a drawn cabinet has, on which sides and in which rings, and their times."""

from dataclasses import dataclass
from random import Random
from typing import Any

CellList = list[Any]
"""A cell as a scenario has it."""


@dataclass(frozen=True)
class Structure:
    """The sides of a cabinet; each has the phases of ring 1 and those of ring 2."""

    sides: tuple[tuple[tuple[int, ...], tuple[int, ...]], ...]

    @property
    def phases(self) -> list[int]:
        """Returns all phases in use."""
        return [p for side in self.sides for ring in side for p in ring]


STANDARD = Structure((((1, 2), (5, 6)), ((3, 4), (7, 8))))


def octets(phases: Any) -> str:
    """Returns a list of phases as hexadecimal octets."""
    return bytes(phases).hex()


def structure(draw: Random) -> Structure:
    """Draws which phases there are: mostly those of the standard tables, else two or three sides of any."""
    if draw.random() < 0.55:
        return STANDARD
    left = draw.sample(range(1, 17), 16)

    def ring() -> tuple[int, ...]:
        return tuple(left.pop() for _ in range(draw.choice([1, 1, 2, 2, 3] if len(left) > 10 else [1, 1, 2])))

    return Structure(tuple((ring(), ring()) for _ in range(draw.choice([2, 2, 3]))))


def structure_cells(draw: Random, made: Structure) -> list[CellList]:
    """Returns the cells that turn a standard table into one of a structure."""
    cells: list[CellList] = [["phase", p, 21, 0] for p in range(1, 9) if p not in made.phases]
    for side in made.sides:
        for ring, phases in enumerate(side, 1):
            for p in phases:
                fellows = list(side[2 - ring])
                strays = [q for q in range(1, 17) if q not in made.phases]
                if strays and draw.random() < 0.1:
                    fellows.append(draw.choice(strays))
                draw.shuffle(fellows)
                cells += [["phase", p, 22, ring], ["phase", p, 23, octets(fellows)]]
    return cells + sequence_cells(draw, made, 1)


def sequence_cells(draw: Random, made: Structure, number: int) -> list[CellList]:
    """Returns the cells of a sequence: the sides in one order in both rings, the phases of each in any."""
    order = draw.sample(made.sides, len(made.sides))
    return [
        [
            "sequence",
            number,
            ring,
            octets(p for side in order for p in draw.sample(side[ring - 1], len(side[ring - 1]))),
        ]
        for ring in (1, 2)
    ]


def options(draw: Random) -> int:
    """Draws the options of a phase in use."""
    return 1 + sum(
        bit for bit, often in ((32, 0.3), (64, 0.35), (128, 0.12), (256, 0.15), (1024, 0.5)) if draw.random() < often
    )


def start_ups(draw: Random, made: Structure) -> dict[int, int]:
    """Draws the start-up of each phase: those that turn green are of one side and of different rings."""
    side = draw.choice(made.sides)
    chosen = [draw.choice(ring) for ring in side if draw.random() < 0.7]
    return {p: draw.choice([3, 4]) if p in chosen else draw.choice([1, 2, 5, 6]) for p in made.phases}


@dataclass(frozen=True)
class Usual:
    """The usual values of the times of phases, and how often a time is one at an edge of its range instead."""

    walk: list[int]
    ped_clear: list[int]
    least_green: list[int]
    passage: list[int]
    yellow: list[int]
    red_clear: list[int]
    edgy: float


SLOW = Usual(
    [0, 0, 1, 2, 3, 4, 6], [0, 1, 2, 5], [0, 1, 2, 3, 5], [0, 1, 7, 15, 30], [30, 31, 35, 42], [0, 1, 5, 12], 0.02
)
QUICK = Usual([0, 0, 0, 1], [0, 1], [0, 1, 1, 2], [0, 1, 3, 9], [30, 30, 30, 30, 31], [0, 0, 0, 10, 4], 0)
EDGY = Usual(*[getattr(SLOW, name) for name in SLOW.__dataclass_fields__ if name != "edgy"], 0.1)
STYLES = [QUICK, QUICK, QUICK, SLOW, SLOW, EDGY]


def time_cells(draw: Random, made: Structure) -> list[CellList]:
    """Draws the times and options of all phases: mostly short ones, so that cycles are short and much happens."""
    cells: list[CellList] = []
    starts, usual = start_ups(draw, made), draw.choice(STYLES)

    def near(values: list[int], edges: list[int]) -> int:
        return draw.choice(edges if draw.random() < usual.edgy else values)

    for p in made.phases:
        walk = near(usual.walk, [20, 255])
        columns = {
            2: walk,
            3: near(usual.ped_clear, [20, 255]) if walk else 0,
            4: near(usual.least_green, [255]),
            5: near(usual.passage, [255]),
            6: near([0, 1, 2, 4, 8], [255]),
            8: near(usual.yellow, [29, 255]),
            9: near(usual.red_clear, [255]),
            10: near([0, 1, 10, 20, 30, 30] * 8 + [31], [60, 255]),
            20: starts[p],
            21: options(draw),
        }
        cells += [["phase", p, column, value] for column, value in columns.items()]
    return cells
