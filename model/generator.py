"""A scenario that is generated at random, the same for the same seed.

docs/SCENARIO.md, "A scenario that is generated".
"""

from collections.abc import Callable
from typing import Any

from model.scenario import Scenario
from model.scenario_read import content
from model.words_given import Seed

Draw = Callable[[int], int]


def draws(seed: int) -> Draw:
    """Returns the random generator of a seed: each call gives one of the numbers from 0 to n - 1."""
    state = seed % 2**31

    def draw(n: int) -> int:
        nonlocal state
        state = (1103515245 * state + 12345) % 2**31
        return state // 65536 % n

    return draw


def round_drawn(draw: Draw, number: int, cabinets: int) -> tuple[list[Any], list[Any]]:
    """Returns the inputs and the faults of a round."""
    inputs: list[Any] = []
    for cabinet in range(1, cabinets + 1):
        phase, on, button = 1 + draw(8), draw(2) == 1, draw(4) == 0
        inputs.append({"round": number, "cabinet": cabinet, "veh": phase, "on": on})
        if button:
            inputs.append({"round": number, "cabinet": cabinet, "ped": 2})
    if draw(5) != 0:
        return inputs, []
    fault = {"round": number, "cabinet": 1 + draw(cabinets), "stream": "poll", "way": "down", "kind": "lose"}
    return inputs, [fault]


def generated(words: Seed) -> Scenario:
    """Returns the scenario that the words name."""
    draw = draws(words.seed)
    cabinets, loads, inputs, faults = [], [], [], []
    for number in range(1, words.cabinets + 1):
        offset, correction, late, green = draw(90), draw(3), draw(words.rounds), draw(30)
        cells = [["pattern", 1, 3, offset], ["unit", 1, 2 + correction]]
        cabinets.append({"base": "std8", "cells": cells, "pattern": 1})
        loads.append({"cabinet": number, "round": 1 + late, "cells": [["phase", 2, 6, 30 + green]]})
    for number in range(1, words.rounds + 1):
        told, lost = round_drawn(draw, number, words.cabinets)
        inputs += told
        faults += lost
    schedule = [{"pattern": 1, "second": 0, "section": 1}]
    master = {"pattern_every": 60, "poll_every": 1, "retries": 3, "schedule": schedule}
    return content(
        {
            "cabinets": cabinets,
            "faults": faults,
            "inputs": inputs,
            "loads": loads,
            "master": master,
            "rounds": words.rounds,
            "ticks": 100,
            "version": 1,
        }
    )
