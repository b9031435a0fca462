"""The objects of a scenario and of a field file by their names, and all faults of a value."""

from collections.abc import Iterator
from typing import Any

from .values import (
    MOST_TICKS,
    WHOLE,
    Fault,
    Test,
    below,
    cell,
    community,
    flag,
    listing,
    may,
    members,
    must,
    octets,
    thing,
    whole,
    word,
)

BYTE, WORD = whole(0, 255), whole(0, 65535)
EVERY, TEN, PHASE = may(whole(0, 86400)), must(whole(1, 10)), must(whole(1, 16))
STREAM, ON = must(word("poll", "load", "priority")), must(flag)
CLOCK = whole(0, 863_999, meaning="tenths of a second since midnight; 7:00 is 252000")
SECOND = whole(0, 86_399, meaning="a second of the day; 7:00 is 25200")
ENTRY = thing({"second": must(SECOND), "section": must(whole(1, 8)), "pattern": must(BYTE)})
MASTER = thing({
    "clock": may(CLOCK), "poll_every": EVERY, "clock_every": EVERY, "pattern_every": EVERY,
    "retries": may(whole(1, 10)),
    "schedule": may(listing(0, 1000, ENTRY)),
})  # fmt: skip
REQUEST = {"number": TEN, "class": TEN, "level": TEN, "phase": PHASE, "arrival": must(WORD), "departure": must(WORD)}
INPUTS = ({"veh": PHASE, "on": ON}, {"ped": PHASE}, {"preempt": must(whole(1, 8)), "on": ON})
LINE_FAULT = {
    "stream": STREAM, "way": must(word("down", "up")), "index": may(WORD),
    "kind": must(word("lose", "repeat", "late", "flip", "cut")),
    "by": EVERY, "octet": may(whole(1, 255)),
}  # fmt: skip


def one_drift(path: str, value: dict[str, Any]) -> Iterator[Fault]:
    """Tests a cabinet's clock for not gaining and losing both."""
    if value.get("gain") and value.get("lose"):
        yield Fault("field", path, "expected 0 for gain or for lose: a clock gains or loses, not both")


def cabinet(version: object) -> Test:
    """Returns what tests a cabinet."""
    names = {
        "base": may(word("std8", "max8")), "cells": may(listing(0, 4096, cell)), "pattern": may(BYTE),
        "clock": may(CLOCK),
        "section": may(whole(1, 8)),
    }  # fmt: skip
    if version != 2:
        return thing(names)
    drift = may(whole(12_000, 864_000, also=0))
    return thing({**names, "gain": drift, "lose": drift}, after=one_drift)


def leaves_after_coming(path: str, value: dict[str, Any]) -> Iterator[Fault]:
    """Tests a priority request for not leaving before it comes."""
    come, gone = value.get("arrival"), value.get("departure")
    if "cancel" not in value and type(come) is int and type(gone) is int and come > gone:
        yield Fault(
            "limit", below(path, "departure"), f"expected a departure at or after the arrival ({come}), found {gone}"
        )


def few_loads(load: Test) -> Test:
    """Returns what tests a download, of which a cabinet has at most a hundred."""
    counts: dict[str, Any] = {}

    def test(path: str, value: object) -> Iterator[Fault]:
        yield from load(path, value)
        if type(value) is dict and type(value.get("cabinet")) is int:
            number = value["cabinet"]
            counts[number] = counts.get(number, 0) + 1
            if counts[number] > 100:
                yield Fault(
                    "limit", path, f"expected at most 100 downloads of cabinet {number}, found {counts[number]}"
                )

    return test


def size(value: object, most: int) -> int:
    """Returns a number in range, else the greatest that there may be."""
    return value if type(value) is int and 1 <= value <= most else most


def lists(rounds: int, cabinets: int) -> dict[str, Any]:
    """Returns the lists of what happens in some rounds to some cabinets."""
    where = {"round": must(whole(1, rounds)), "cabinet": must(whole(1, cabinets))}
    return {
        "inputs": may(listing(0, 1_000_000, thing(where, INPUTS))),
        "loads": may(listing(0, 10**9, few_loads(thing({**where, "cells": must(listing(1, 768, cell))})))),
        "priority": may(listing(0, 100_000, thing(where, ({"cancel": TEN}, REQUEST), leaves_after_coming))),
        "frames": may(listing(0, 100_000, thing({**where, "stream": STREAM, "hex": must(octets(1472))}))),
        "faults": may(listing(0, 100_000, thing({**where, **LINE_FAULT}))),
    }


DETECTOR = {
    "detector": must(whole(1, 64)), "phase": PHASE, "delay": must(BYTE), "extend": must(BYTE),
    "no_activity": must(WORD), "max_presence": must(WORD), "erratic": must(BYTE),
}  # fmt: skip
COUNT = must(whole(1, 1_000_000))
STEP = thing({"up": COUNT, "down": COUNT, "pattern": must(BYTE)})
SECTION = thing({"section": must(whole(1, 8)), "base": must(BYTE), "steps": must(listing(0, 8, STEP))})


def field_faults(value: dict[str, Any]) -> Iterator[Fault]:
    """Yields the faults of a field file's own parts: its detectors, their pulses, and how patterns follow the
    traffic."""
    cabinet = {"cabinet": must(whole(1, 64))}
    pulse = {"round": must(whole(1, 86_400)), **cabinet, "detector": must(whole(1, 64)), "on": ON}
    yield from members(
        WHOLE,
        value,
        {
            "bank": may(listing(0, 512, thing(cabinet | DETECTOR))),
            "pulses": may(listing(0, 1_000_000, thing(pulse))),
            "respond": may(thing({"period": must(whole(1, 3600)), "sections": must(listing(1, 8, SECTION))})),
        },
    )


def scenario_faults(value: object) -> Iterator[Fault]:
    """Yields all faults of a value that is to be a scenario, but for the rules of tables, in the order in which the
    program looks."""
    head = {
        "version": must(whole(1, 2)),
        "rounds": must(whole(1, 86_400)),
        "ticks": must(whole(1, 600)),
        "community": may(community),
    }

    def rest(_: str, it: dict[str, Any]) -> Iterator[Fault]:
        found = it.get("cabinets")
        count = size(len(found) if type(found) is list else 0, 64)
        yield from members(
            WHOLE, it, {"cabinets": must(listing(1, 64, cabinet(it.get("version")))), "master": may(MASTER)}
        )
        yield from members(WHOLE, it, lists(size(it.get("rounds"), 86_400), count))
        ticks = size(it.get("rounds"), 86_400) * size(it.get("ticks"), 600) * count
        if all(type(it.get(name)) is int for name in ("rounds", "ticks")) and ticks > MOST_TICKS:
            yield Fault("limit", "rounds", f"expected cabinets x rounds x ticks of at most {MOST_TICKS}, found {ticks}")

    def later(_: str, __: object) -> Iterator[Fault]:
        yield from ()

    names = {name: may(later) for name in ("cabinets", "master", "inputs", "loads", "priority", "frames", "faults")}
    yield from thing(head | names, after=rest)(WHOLE, value)
