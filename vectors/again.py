"""Right files in which a name comes again: the first time with what mostly may not stand there, the last time as it
may. Of equal names the last counts, so each is read as it is without the first. A list of any length stands in it."""

import json
from typing import NamedTuple

from shapes import Place, Shape

LONG = "@"
"""Stands in a list of a value where more items do, as many as are asked for."""

WRONG = (
    b"1.5",
    b"-1",
    b"99999999999999999999",
    b"null",
    b'"a"',
    b"true",
    b"[]",
    b"[1.5]",
    b'[[{"a":1}]]',
    b"{}",
    b'{"a":{"a":1.5}}',
    b'[{"cells":1.5,"steps":[{"up":1.5}]}]',
    b"[" + b",".join([b"[]"] * 5_000) + b"]",
    b"{" + b",".join(b'"%d":1' % number for number in range(100)) + b"}",
)
"""Values of which most may not stand at most names."""

INPUTS = Shape("more inputs", b"", b'{"cabinet":1,"round":1,"veh":1,"on":true}', b",", b"")
PULSES = Shape("more pulses", b"", b'{"cabinet":1,"round":1,"detector":1,"on":true}', b",", b"")

EVENT = {"round": 1, "cabinet": 1}
CABINET = {"base": "max8", "cells": [["phase", 2, 2, 5]], "pattern": 1, "clock": 1, "section": 1, "gain": 0, "lose": 0}
EVERY = {"poll_every": 1, "clock_every": 1, "pattern_every": 1}
REQUEST = {"number": 1, "class": 1, "level": 1, "phase": 2, "arrival": 1, "departure": 2}
SCENARIO = {
    "version": 2,
    "rounds": 2,
    "ticks": 10,
    "community": "public",
    "cabinets": [CABINET],
    "master": {"clock": 0, **EVERY, "retries": 1, "schedule": [{"second": 0, "section": 1, "pattern": 1}]},
    "loads": [{**EVENT, "cells": [["phase", 2, 2, 6]]}],
    "priority": [{**EVENT, **REQUEST}, {**EVENT, "cancel": 1}],
    "frames": [{**EVENT, "stream": "poll", "hex": "00"}],
    "faults": [{**EVENT, "stream": "poll", "way": "up", "index": 0, "kind": "flip", "by": 1, "octet": 1}],
    "inputs": [{**EVENT, "veh": 1, "on": True}, {**EVENT, "ped": 2}, {**EVENT, "preempt": 1, "on": False}, LONG],
}
STREET = {"scenario": {**SCENARIO, "cabinets": [{}, {}]}, "section": 1, "pattern": 1, "travel": [10]}
DETECTOR = {"cabinet": 1, "detector": 1, "phase": 1, "delay": 0, "extend": 0}
FAILURES = {"no_activity": 0, "max_presence": 0, "erratic": 0}
RULE = {"section": 1, "base": 1, "steps": [{"up": 2, "down": 1, "pattern": 2}]}
PULSE = {**EVENT, "detector": 1, "on": True}
FIELD = {
    "scenario": {**SCENARIO, "master": {"clock": 0, "retries": 1}, "inputs": []},
    "bank": [{**DETECTOR, **FAILURES}],
    "respond": {"period": 1, "sections": [RULE]},
    "pulses": [PULSE, LONG],
}
WITH_INPUTS = {**FIELD, "scenario": {**FIELD["scenario"], "inputs": SCENARIO["inputs"]}, "pulses": [PULSE]}


class Again(NamedTuple):
    """A name that comes again in a value: the shape of the long list, its place in the value as it is, and its places
    where each of the values that may not stand there stands before what counts."""

    shape: Shape
    plain: Place
    places: tuple


def names_in(value, path=()):
    """Yields the path of each member of each object in a value."""
    if isinstance(value, dict):
        for name, inner in value.items():
            yield (*path, name)
            yield from names_in(inner, (*path, name))
    if isinstance(value, list):
        for place, inner in enumerate(value):
            yield from names_in(inner, (*path, place))


def written(value, path, wrong):
    """Returns the text of a value, in which this stands at the name of a path, before what counts there."""
    if value == LONG:
        return LONG.encode()
    if isinstance(value, dict):
        texts = []
        for name, inner in value.items():
            if path == (name,):
                texts.append(b'"%s":%s' % (name.encode(), wrong))
            below = path[1:] if path[:1] == (name,) else ()
            texts.append(b'"%s":%s' % (name.encode(), written(inner, below, wrong)))
        return b"{" + b",".join(texts) + b"}"
    if isinstance(value, list):
        texts = [written(inner, path[1:] if path[:1] == (at,) else (), wrong) for at, inner in enumerate(value)]
        return b"[" + b",".join(texts) + b"]"
    return json.dumps(value).encode()


def shown(path):
    """Returns a path as the program's refusals name it."""
    return "".join(f"[{step}]" if isinstance(step, int) else f".{step}" for step in path)[1:]


def place_in(name, text):
    """Returns the place of the long list in a text."""
    before, behind = text.split(LONG.encode())
    return Place(name, before, behind, False)


def again_in(value, shape):
    """Yields each name of each object of a value as one that comes again."""
    plain = place_in("a right file", written(value, (), b""))
    for path in names_in(value):
        places = []
        for wrong in WRONG:
            what = wrong.decode() if len(wrong) < 40 else f"{wrong[:10].decode()}..."
            places.append(place_in(f"{shown(path)} {what} before", written(value, path, wrong)))
        yield Again(shape, plain, tuple(places))


def twice_in(value, shape):
    """Yields the same for the names of the scenario in a value, where the scenario comes again too, first as a list."""
    first = b'{"scenario":[{"master":1.5}],'
    for path, again in zip(names_in(value), again_in(value, shape), strict=True):
        if path[0] == "scenario" and len(path) > 1:
            named = (it._replace(name=f"{it.name}, and a list as scenario") for it in again.places)
            yield again._replace(places=tuple(it._replace(before=first + it.before[1:]) for it in named))


AGAIN_IN_SCENARIO = tuple(again_in(SCENARIO, INPUTS))
AGAIN_IN_STREET = (*again_in(STREET, INPUTS), *twice_in(STREET, INPUTS))
AGAIN_IN_FIELD = (*again_in(FIELD, PULSES), *again_in(WITH_INPUTS, INPUTS), *twice_in(WITH_INPUTS, INPUTS))
