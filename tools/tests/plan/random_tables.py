"""Random tables that keep the rules, and some that break one: rings drawn by chance, patterns laid so that each phase
has its time."""

import random

PLAIN = ("none", "minimum")


def drawn(dice: random.Random) -> list[tuple[list[int], list[int]]]:
    """Returns the sides of random barriers, each with the phases of both rings."""
    if dice.random() < 0.3:
        return [([1, 2], [5, 6]), ([3, 4], [7, 8])]
    phases = list(range(1, 17))
    dice.shuffle(phases)
    count = dice.randint(2, 3)
    return [tuple([phases.pop() for _ in range(dice.randint(1, 2))] for _ in (1, 2)) for _ in range(count)]


def octets(phases: list[int]) -> str:
    """Returns a list of phases as a cell has it."""
    return bytes(phases).hex()


def phase_cells(dice: random.Random, sides: list) -> dict:
    """Returns the rows of all phases: enabled ones with times that keep the rules, the others with anything."""
    cells: dict = {}
    start = dice.choice(sides)
    starting = {ring[0] for ring in start if dice.random() < 0.7}
    everyone = [phase for side in sides for ring in side for phase in ring]
    for phase in range(1, 17):
        row = {
            4: dice.randint(3, 15),
            5: dice.randint(0, 60),
            6: dice.randint(0, 90),
            8: dice.randint(30, 60),
            9: dice.randint(0, 30),
        }
        row |= {
            2: 0,
            3: 0,
            10: dice.randint(0, 40),
            20: dice.choice((1, 2, 5, 6)),
            21: dice.choice((0, 32, 64, 128, 256, 1024)),
        }
        if dice.random() < 0.5:
            row |= {2: dice.randint(1, 12), 3: dice.randint(0, 20)}
        if dice.random() < 0.2:
            row |= {column: dice.randint(0, 255) for column in (7, *range(11, 20))}
        row[21] |= dice.choice((0, 0, 0, 2, 4, 512, 2048, 0x8000))
        if phase in everyone:
            row[21] |= 1
            row[20] = dice.choice((3, 4)) if phase in starting else row[20]
        cells |= {("phase", phase, column): value for column, value in row.items()}
    for side in sides:
        for ring, phases in enumerate(side, 1):
            for phase in phases:
                facing = list(side[2 - ring])
                extra = [it for it in range(1, 17) if it not in everyone and dice.random() < 0.05]
                dice.shuffle(facing)
                cells |= {("phase", phase, 22): ring, ("phase", phase, 23): octets(facing + extra)}
    return cells


def sequence_cells(dice: random.Random, sides: list) -> tuple[dict, list[int]]:
    """Returns orders of the rings: in each the sides in one order, the phases of a side in any."""
    cells: dict = {}
    used = [1, *(number for number in range(2, 17) if dice.random() < 0.2)]
    for number in used:
        turns = dice.sample(sides, len(sides))
        for ring in (1, 2):
            order = [phase for side in turns for phase in dice.sample(side[ring - 1], len(side[ring - 1]))]
            cells["sequence", number, ring] = octets(order)
    return cells, used


def least(cells: dict, phase: int) -> int:
    """Returns the seconds that a phase must have in a split, with its service and the greatest clearance that there can
    be."""
    service = max(cells["phase", phase, 4], cells["phase", phase, 2] + cells["phase", phase, 3])
    return service + 10


def side_times(dice: random.Random, cells: dict, side: tuple, pair: set[int]) -> dict[int, int]:
    """Returns a split of a side: each phase with its least and something more, both rings alike."""
    times = {phase: least(cells, phase) + (25 if phase in pair else 0) for ring in side for phase in ring}
    total = max(sum(times[it] for it in ring) for ring in side) + dice.randint(0, 3)
    for ring in side:
        chosen = next((it for it in ring if it in pair), dice.choice(ring))
        times[chosen] += total - sum(times[it] for it in ring)
    return times


def pattern_cells(dice: random.Random, cells: dict, sides: list, used: list[int]) -> dict:
    """Returns patterns and splits. A pattern whose times would not fit into its cells is left out."""
    found: dict = {("pattern", 1, 2): 0}
    for number in [it for it in range(1, 49) if dice.random() < 0.1]:
        split = dice.randint(1, 32)
        side = dice.choice(sides)
        pair = {dice.choice(side[0]), dice.choice(side[1])}
        times: dict[int, int] = {}
        for it in sides:
            times |= side_times(dice, cells, it, pair if it is side else set())
        cycle = sum(times[it] for each in sides for it in each[0])
        if cycle > 255 or max(times.values()) > 255 or any(key[:2] == ("split", split) for key in found):
            continue
        found |= {
            ("pattern", number, 2): cycle,
            ("pattern", number, 3): dice.randrange(cycle),
            ("pattern", number, 4): split,
        }
        found |= {("pattern", number, 5): dice.choice(used)}
        found |= {("split", split, phase, 3): time for phase, time in times.items()}
        found |= {("split", split, phase, 5): int(phase in pair) for phase in range(1, 17) if phase in times}
        found |= {("split", split, phase, 4): dice.randint(1, 6) for phase in times if dice.random() < 0.2}
    return found


def loose_cells(dice: random.Random, sides: list) -> dict:
    """Returns the cabinet's own numbers, and preempts."""
    cells: dict = {
        ("unit", 1): dice.randint(2, 4),
        ("unit", 5): dice.choice((0, 600)),
        ("unit", 6): dice.randint(0, 200),
    }
    cells |= {("unit", column): dice.randint(1, 50) for column in (2, 3, 4)} | {
        ("unit", column): dice.randint(1, 2) for column in (7, 8)
    }
    for number in [it for it in range(1, 9) if dice.random() < 0.2]:
        cells |= {("preempt", number, column): dice.randint(0, 60) for column in range(4, 12)}
        for column in (12, 13, 15):
            side = dice.choice(sides)
            cells["preempt", number, column] = octets([dice.choice(ring) for ring in side if dice.random() < 0.7])
        cells["preempt", number, 14] = octets([dice.randint(0, 20)])
    return cells


def cells_of(dice: random.Random) -> list[list]:
    """Returns cells over std8 that make random tables, nearly always ones that keep the rules."""
    sides = drawn(dice)
    cells = phase_cells(dice, sides)
    orders, used = sequence_cells(dice, sides)
    cells |= orders
    cells |= pattern_cells(dice, cells, sides, used) | loose_cells(dice, sides)
    return [[*cell, value] for cell, value in cells.items()]


def wrong_cell(dice: random.Random) -> list:
    """Returns a cell that often breaks a rule."""
    phase, number = dice.randint(1, 16), dice.randint(1, 48)
    phases = octets([dice.randint(0, 18) for _ in range(dice.randint(0, 3))])
    return dice.choice((
        ["phase", phase, 22, dice.randint(0, 3)], ["phase", phase, 23, phases],
        ["phase", phase, 21, dice.choice((0, 1))],
        ["phase", phase, 8, dice.randint(0, 40)], ["phase", phase, 10, dice.randint(0, 255)],
        ["phase", phase, 20, dice.randint(3, 4)],
        ["phase", phase, 2, 0], ["phase", phase, 3, dice.randint(0, 60)],
        ["sequence", dice.randint(1, 16), dice.randint(1, 2), phases],
        ["unit", 1, 1], ["unit", dice.randint(2, 4), dice.choice((0, 1, 500, 2550))],
        ["pattern", number, 2, dice.randint(0, 255)],
        ["pattern", number, 3, dice.randint(0, 255)], ["pattern", number, 4, dice.randint(0, 40)],
        ["pattern", number, 5, dice.randint(0, 20)],
        ["split", dice.randint(1, 32), phase, 3, dice.randint(0, 60)],
        ["split", dice.randint(1, 32), phase, 5, dice.randint(0, 1)],
        ["split", dice.randint(1, 32), phase, 4, dice.choice((2, 7))],
        ["preempt", dice.randint(1, 8), dice.choice((12, 13, 15)), phases],
    ))  # fmt: skip
