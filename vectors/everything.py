"""A small scenario with everything that a scenario may have, for the scripts beside."""

import json

GET = "3082002b02010004067075626c6963a01e02010102010002010030133011060d2b060104018936040201040a000500"
"""A Get of one object, by the community `public`."""

ROUNDS, CABINETS, STREAMS = 14, 3, ("poll", "load", "priority")
KINDS = [
    {"kind": "lose"},
    {"kind": "repeat"},
    {"kind": "late", "by": 2},
    {"kind": "flip", "by": 9, "octet": 1},
    {"kind": "cut", "by": 9},
]


def cabinets():
    """Returns a cabinet that runs free, one in step with a pattern whose clock gains, and one whose clock loses."""
    pattern = [["pattern", 2, column, value] for column, value in ((2, 90), (3, 20), (4, 1), (5, 1))]
    return [
        {"base": "max8", "section": 2},
        {"base": "std8", "pattern": 1, "clock": 840, "gain": 12000, "section": 1, "cells": pattern},
        {"clock": 863_900, "lose": 12001, "cells": [*pattern, ["preempt", 1, 12, "0206"]]},
    ]


def inputs():
    """Yields what detectors, push buttons and preempts tell."""
    for number in range(2, ROUNDS):
        for cabinet in range(1, CABINETS + 1):
            yield {"round": number, "cabinet": cabinet, "veh": number % 8 + 1, "on": number % 3 > 0}
            yield {"round": number, "cabinet": cabinet, "ped": number % 4 * 2 + 2}
    for number, is_on in ((5, True), (8, False)):
        yield {"round": number, "cabinet": 3, "preempt": 1, "on": is_on}


def faults():
    """Yields each fault of the line on each stream, down and up."""
    for place, kind in enumerate(KINDS):
        for stream in STREAMS:
            for way in ("down", "up"):
                yield {"round": 2 * place + 2, "cabinet": 1 + place % CABINETS, "stream": stream, "way": way, **kind}


def everything(*, crowded: bool = False) -> bytes:
    """Returns the scenario's text. A crowded one has 25 cabinets more, so that each of several workers has cabinets to
    take up."""
    request = {"number": 1, "class": 2, "level": 3, "phase": 6, "arrival": 20, "departure": 300}
    every = range(1, CABINETS + 1)
    lists = {
        "inputs": list(inputs()),
        "loads": [
            {"round": 1 + 5 * (at % 2), "cabinet": it, "cells": [["phase", 2, 6, 40 + at]]}
            for at, it in enumerate((*every, *every))
        ],
        "priority": [{"round": 3 * it, "cabinet": it, **request} for it in every]
        + [{"round": 10, "cabinet": it, "cancel": 1} for it in every],
        "frames": [
            {"round": 2 * at + 3, "cabinet": it, "stream": stream, "hex": GET}
            for it in every
            for at, stream in enumerate(STREAMS)
        ],
        "faults": list(faults()),
    }
    schedule = [
        {"second": second, "section": section, "pattern": section} for second in (0, 86300) for section in (1, 2)
    ]
    master = {
        "clock": 863_500, "poll_every": 2, "clock_every": 5, "pattern_every": 3, "retries": 2, "schedule": schedule
    }
    all_cabinets = [*cabinets(), *([{"base": "max8"}] * 25 if crowded else [])]
    head = {
        "version": 2, "rounds": ROUNDS, "ticks": 50, "community": "public", "cabinets": all_cabinets, "master": master
    }
    return json.dumps(head | lists).encode()
