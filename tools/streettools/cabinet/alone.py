"""The scenario that has only one cabinet of a street, and the scenario of all that it received.

Cabinets know nothing of each other, so a single cabinet gives the same answers as among the others. A session requires
downloads and priority requests in the order of rounds; a later download doesn't pass one that is listed before it.
"""

import json
from collections.abc import Iterator
from typing import Any

from ..shared.session import LISTS
from ..street.street import rounds_for

Scenario = dict[str, Any]


def compact(value: Any) -> bytes:
    """Returns a value as JSON without white space, in bytes."""
    return json.dumps(value, separators=(",", ":")).encode()


def due(loads: list[dict]) -> Iterator[dict]:
    """Yields the downloads of a cabinet, each with the round before which it can't begin."""
    latest = 0
    for load in loads:
        latest = max(latest, load["round"])
        yield load | {"round": latest}


def alone(scenario: Scenario, cabinet: int) -> Scenario:
    """Returns the scenario of one cabinet, which is the first there."""
    made = scenario | {"cabinets": [scenario["cabinets"][cabinet - 1]]}
    for name in LISTS:
        items = [item | {"cabinet": 1} for item in scenario.get(name, ()) if item["cabinet"] == cabinet]
        if name in scenario:
            made[name] = sorted(due(items) if name == "loads" else items, key=lambda item: item["round"])
    return made


def with_all(scenario: Scenario, cabinet: int, rounds: int, frames: list[dict]) -> bytes:
    """Returns the whole scenario with the messages that a cabinet received, with at least `rounds` rounds (at most what
    a scenario may have)."""
    came = [frame | {"cabinet": cabinet} for frame in frames]
    rounds = max(min(rounds, rounds_for(scenario)), scenario["rounds"])
    return compact(scenario | {"rounds": rounds, "frames": [*scenario.get("frames", ()), *came]})
