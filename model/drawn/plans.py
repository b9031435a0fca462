"""Patterns, units and preempts of a drawn cabinet."""

from dataclasses import dataclass
from random import Random

from model.drawn.structures import CellList, Structure, octets, sequence_cells


def pair(draw: Random, made: Structure) -> tuple[int, ...]:
    """Draws phases of one side and of different rings."""
    side = draw.choice(made.sides)
    return tuple(draw.choice(ring) for ring in side)


def times_of(draw: Random, made: Structure, needs: dict[int, int]) -> dict[int, int]:
    """Draws split times in seconds that hold what each phase needs, and whose sums are equal in both rings of each
    side."""
    times: dict[int, int] = {}
    for side in made.sides:
        for ring in side:
            times |= {p: needs[p] + draw.choice([0, 0, 0, 1, 2, 5]) for p in ring}
        totals = [sum(times[p] for p in ring) for ring in side]
        shorter = side[0] if totals[0] < totals[1] else side[1]
        times[draw.choice(shorter)] += abs(totals[0] - totals[1])
    return times


def split_cells(
    draw: Random, made: Structure, number: int, times: dict[int, int], held: tuple[int, ...]
) -> list[CellList]:
    """Returns the cells of a split."""
    cells: list[CellList] = [["split", number, p, 5, int(p in held)] for p in {*made.phases, 2, 6}]
    for p in made.phases:
        mode = draw.choice([2, 2, 2, 2, 1, 3, 4, 5, 6, 2 if p in held else 7])
        cells += [["split", number, p, 3, min(times[p], 255)], ["split", number, p, 4, mode]]
    return cells


@dataclass
class Plan:
    """A drawn pattern: its number, cycle and offset in seconds, and its coordinated phases."""

    number: int
    cycle: int
    offset: int
    held: tuple[int, ...]


def pattern_cells(draw: Random, made: Structure, number: int, needs: dict[int, int]) -> tuple[Plan, list[CellList]]:
    """Draws a pattern with a split and, at times, a sequence of its own."""
    held, split = pair(draw, made), draw.choice([1, min(number, 31), 32])
    times = times_of(
        draw, made, {p: need + (draw.choice([1, 3, 6, 9]) if p in held else 0) for p, need in needs.items()}
    )
    cycle = sum(times[p] for side in made.sides for p in side[0])
    sequence = draw.choice([1, 1, 2, 16])
    cells = [] if sequence == 1 else sequence_cells(draw, made, sequence)
    plan = Plan(number, cycle, draw.choice([0, cycle - 1, draw.randrange(cycle)]), held)
    columns = {2: cycle, 3: plan.offset, 4: split, 5: sequence}
    cells += split_cells(draw, made, split, times, held)
    return plan, cells + [["pattern", number, column, min(value, 255)] for column, value in columns.items()]


def unit_cells(draw: Random, window: int, least: int) -> list[CellList]:
    """Draws correction, backup time, extension, force mode and offset reference. The limits of correction are at most
    what a window and the minimum service of the coordinated phases leave, sometimes a tick more."""
    widest = max(1, window)
    skip = max(1, min(widest // 2, window - least))
    more = draw.choice([0] * 15 + [1])
    columns = {
        1: draw.choice([2, 3, 3, 4]),
        2: draw.choice([1, 3, 20, 100, 2550]),
        3: draw.choice([1, 2, widest // 3 or 1, widest, widest]) + more,
        4: draw.choice([1, 2, skip // 2 or 1, skip, skip]) + more,
        5: draw.choice([0, 0, 0, 0, 9, 25, 40, 65535]),
        6: draw.choice([0, 10, 60, 2550]),
        7: draw.choice([1, 2]),
        8: draw.choice([1, 2]),
    }
    return [["unit", column, min(value, 2550)] for column, value in columns.items()]


def set_of(draw: Random, made: Structure) -> str:
    """Draws a set of phases that may be on together, at times none."""
    chosen = [p for p in pair(draw, made) if draw.random() < 0.75]
    draw.shuffle(chosen)
    return octets(chosen)


def preempt_cells(draw: Random, made: Structure, number: int) -> list[CellList]:
    """Draws a preempt."""
    cells: list[CellList] = [["preempt", number, column, set_of(draw, made)] for column in (12, 13, 14, 15)]
    for column, values in {
        4: [0, 0, 0, 1],
        5: [0, 1, 5, 5, 8],
        6: [0, 1, 2],
        7: [0, 1, 2],
        8: [0, 1, 3],
        9: [0, 1, 4],
        10: [0, 1, 4],
        11: [0, 0, 3, 8],
    }.items():
        cells.append(["preempt", number, column, draw.choice(values)])
    return cells
