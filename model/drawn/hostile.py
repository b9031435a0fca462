"""What makes a value hostile: numbers at the edges of ranges, values of other kinds, names that are missing, unknown
or double."""

import json
from random import Random
from typing import Any

EDGES = [
    -1,
    0,
    1,
    2,
    3,
    8,
    9,
    10,
    11,
    16,
    17,
    29,
    30,
    48,
    49,
    64,
    65,
    100,
    255,
    256,
    600,
    601,
    2550,
    2551,
    11_999,
    12_000,
    65_535,
    65_536,
    86_400,
    86_401,
    863_999,
    864_000,
    864_001,
    2**31,
    2**32,
    2**63,
    2**64 - 1,
    2**64,
    -(2**63),
]
OTHERS = [
    None,
    True,
    False,
    "",
    "1",
    "x",
    "public",
    1.0,
    1.5,
    [],
    {},
    [1],
    "0",
    "00",
    "zz",
    "0g",
    "FF",
    "ff" * 17,
    "\u00e9",
    "\n",
]
NAMES = [
    "version",
    "rounds",
    "gain",
    "lose",
    "on",
    "ped",
    "veh",
    "preempt",
    "cancel",
    "number",
    "",
    "a",
    "z",
    "\u00e9",
    "by",
    "cells",
]


def places(value: Any, path: tuple = ()) -> list[tuple]:
    """Returns the paths of all values in a value."""
    inner = value.items() if isinstance(value, dict) else enumerate(value) if isinstance(value, list) else ()
    return [path, *(at for name, it in inner for at in places(it, (*path, name)))]


def changed(draw: Random, value: Any, path: tuple) -> Any:
    """Returns a value in which the part at a path is changed in some way."""
    if path:
        it = value.copy()
        it[path[0]] = changed(draw, it[path[0]], path[1:])
        return it
    kind = draw.random()
    if isinstance(value, dict) and kind < 0.7:
        return draw.choice([without, with_name])(draw, value)
    if isinstance(value, list) and kind < 0.6:
        return value[1:] if draw.random() < 0.5 else value + value[:1]
    if isinstance(value, int) and not isinstance(value, bool) and kind < 0.7:
        return draw.choice([*EDGES, value + 1, value - 1])
    return draw.choice(OTHERS + EDGES)


def without(draw: Random, value: dict[str, Any]) -> dict[str, Any]:
    """Returns an object without one of its names."""
    gone = draw.choice(list(value)) if value else None
    return {name: it for name, it in value.items() if name != gone}


def with_name(draw: Random, value: dict[str, Any]) -> dict[str, Any]:
    """Returns an object with another name in it."""
    return {**value, draw.choice(NAMES): draw.choice(OTHERS + EDGES)}


def hostile(draw: Random, value: Any) -> Any:
    """Returns a value with one to three changes."""
    for _ in range(draw.choice([1, 1, 1, 2, 3])):
        value = changed(draw, value, draw.choice(places(value)))
    return value


def text_of(draw: Random, value: Any) -> bytes:
    """Returns a JSON text of a value, in one of several ways to write it."""
    if draw.random() < 0.5:
        return json.dumps(value, separators=(",", ":"), ensure_ascii=False).encode("utf-8", "surrogatepass")
    return json.dumps(value, indent=draw.choice([None, 1]), ensure_ascii=draw.random() < 0.5).encode(
        "utf-8", "surrogatepass"
    )
