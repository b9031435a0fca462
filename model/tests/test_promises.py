"""The judge accepts the vectors' traces, and refuses a wrong trace for each promise."""

import json
from pathlib import Path
from types import SimpleNamespace

import pytest

from model.commands import answer
from model.orders import Drift
from model.promises import disturbances, offset, told
from model.promises.judging import broken_promises

VECTORS = Path(__file__).resolve().parents[2] / "vectors"


def trace(scenario):
    """Returns the trace of a scenario."""
    return answer(["run"], json.dumps(scenario).encode()).output


def named(text):
    """Returns the names of the promises that a text breaks."""
    return {line.split(":")[0] for line in broken_promises(text)}


MAXIMUM = {"version": 1, "rounds": 2, "ticks": 600, "cabinets": [{"base": "max8"}]}
WALK = {"version": 1, "rounds": 1, "ticks": 300, "cabinets": [{"cells": [["phase", 2, 21, 1345], ["phase", 2, 2, 5]]}]}
DOWNLOAD = {
    "version": 1,
    "rounds": 6,
    "ticks": 60,
    "cabinets": [{}],
    "loads": [{"round": 1, "cabinet": 1, "cells": [["phase", 2, 8, 43]]}],
}
BROKEN_DOWNLOAD = DOWNLOAD | {"loads": [{"round": 1, "cabinet": 1, "cells": [["phase", 2, 8, 29]]}]}
STREET = {"version": 1, "rounds": 4, "ticks": 600, "cabinets": [{"pattern": 1, "clock": 840}]}
PREEMPT = {
    "version": 1,
    "rounds": 700,
    "ticks": 1,
    "cabinets": [
        {
            "cells": [
                ["preempt", 1, 5, 10],
                ["preempt", 1, 6, 5],
                ["preempt", 1, 7, 4],
                ["preempt", 1, 8, 8],
                ["preempt", 1, 10, 5],
                ["preempt", 1, 13, "0206"],
            ]
        }
    ],
    "inputs": [
        {"round": 61, "cabinet": 1, "ped": 4},
        {"round": 285, "cabinet": 1, "preempt": 1, "on": True},
        {"round": 400, "cabinet": 1, "preempt": 1, "on": False},
    ],
}
DARK = "RRRRRRRR"

WRONG = [
    ("phase 3 is green beside phase 2", MAXIMUM, f"F 1 460 RYRRRYRR{DARK}", f"F 1 460 RYGRRYRR{DARK}", "apart"),
    ("a phase that isn't in use is green", MAXIMUM, f"F 1 460 RYRRRYRR{DARK}", "F 1 460 RYRRRYRRGRRRRRRR", "apart"),
    (
        "green turns red clearance without yellow",
        MAXIMUM,
        f"F 1 460 RYRRRYRR{DARK}",
        f"F 1 460 RCRRRYRR{DARK}",
        "apart",
    ),
    ("a walk on a phase that isn't green", WALK, f"F 1 60 RGRRRGRR{DARK} DW", f"F 1 60 RRRRRGRR{DARK} DW", "apart"),
    ("a yellow change that is a tick short", MAXIMUM, "F 1 500 ", "F 1 499 ", "times"),
    ("a red clearance that is a tick long", MAXIMUM, "F 1 515 ", "F 1 516 ", "times"),
    ("a walk that is a tick short", WALK, "F 1 110 ", "F 1 109 ", "times"),
    ("a pedestrian clearance that is a tick long", WALK, "F 1 230 ", "F 1 231 ", "times"),
    ("a pedestrian clearance that is shorter than a preempt leaves of it", PREEMPT, "F 1 365 ", "F 1 364 ", "times"),
    ("a version without a download", MAXIMUM, "F 0 0 0\nF 1 500", "F 0 0 1\nF 1 500", "whole"),
    ("a download that no frame tells of", DOWNLOAD, " F 0 0 1\n", " F 0 0 0\n", "whole"),
    ("a download accepted that breaks a rule", BROKEN_DOWNLOAD, "L 1 1 refused 10 2", "L 1 1 accepted 1", "whole"),
    ("a rule that the download doesn't break", BROKEN_DOWNLOAD, "L 1 1 refused 10 2", "L 1 1 refused 11 2", "whole"),
    (
        "a coordinated phase that isn't green at local zero",
        STREET,
        f"F 1 960 RGRRRGRR{DARK}",
        f"F 1 960 RGRRRYRR{DARK}",
        "zeros",
    ),
    ("an offset that isn't met", STREET, "C1 0 0 0\nZ 4", "C1 0 5 0\nZ 4", "offset"),
]


@pytest.mark.parametrize(("scenario", "due", "put", "promise"), [it[1:] for it in WRONG], ids=[it[0] for it in WRONG])
def test_a_wrong_trace_is_refused(scenario, due, put, promise):
    text = trace(scenario)
    assert broken_promises(text) == []
    assert text.decode().count(due) >= 1, text.decode()
    assert promise in named(text.replace(due.encode(), put.encode(), 1))


def test_a_trace_without_a_local_zero_in_time_is_refused():
    lines = trace(STREET).decode().splitlines()
    kept = [line.replace(" C1 0 0 ", " C1 7 7 ") for line in lines if not line.startswith(("F 1 960 ", "F 1 1860 "))]
    assert named("\n".join([*kept, ""]).encode()) == {"offset"}


def test_lines_out_of_order_are_no_trace():
    assert named(trace(MAXIMUM).replace(b"R 2\n", b"R 3\n")) == {"no trace"}


def test_traces_of_the_vectors_keep_all_promises():
    files = sorted(VECTORS.glob("*/*.trace"))[::3]
    assert files and all(broken_promises(file.read_bytes()) == [] for file in files)


def tick_by_tick(street):
    """Returns what `quiet_spans` has, from every tick: the number of each disturbance that quiet ticks follow, with the
    last of them."""
    orders, seen = {}, {it.tick: it for it in street.seen}
    for order in street.orders:
        orders.setdefault(order.tick + 1, []).append(order)
    watch, shown = disturbances.Watch(street.setup.clock, street.setup.pattern), street.seen[0]
    spans, last = {}, 0
    for number in range(1, street.ticks + 1):
        before, shown = shown, seen.get(number, shown)
        if disturbances.go_on(street, watch, number, orders.get(number, []), shown, before).is_disturbed:
            last = number
        elif last:
            spans[last] = number
    return spans


COMMANDED = {"version": 1, "rounds": 30, "ticks": 100, "cabinets": [{"pattern": 1, "cells": [["unit", 5, 70]]}]}
LONGER = [["pattern", 1, 2, 91], ["split", 1, 2, 3, 31], ["split", 1, 6, 3, 31]]
MIDNIGHT = {"cells": LONGER, "pattern": 1, "clock": 862_500}


@pytest.mark.parametrize(
    "scenario",
    [
        PREEMPT,
        DOWNLOAD,
        COMMANDED,
        {"version": 1, "rounds": 4, "ticks": 600, "cabinets": [MIDNIGHT]},
    ],
    ids=["a preempt", "a download", "the backup time", "midnight"],
)
def test_spans_that_are_jumped_over_are_those_of_every_tick(scenario):
    _, streets = told.streets_of(trace(scenario))
    for street in streets:
        found = {disturbed.number: last for disturbed, last in disturbances.quiet_spans(street)}
        assert found and found == tick_by_tick(street)


@pytest.mark.parametrize("drift", [Drift(), Drift(gain=12_000), Drift(lose=13_000)])
def test_a_clock_goes_on_over_many_ticks_as_over_each(drift):
    street = told.Street(1, SimpleNamespace(drift=drift), [])
    for start, end in ((0, 11_999), (0, 12_000), (11_999, 12_000), (12_000, 26_001), (12_999, 13_000)):
        due = sum(disturbances.rise(street, number) for number in range(start + 1, end + 1))
        assert disturbances.rise_over(street, start, end) == due


@pytest.mark.parametrize(("clock", "first"), [(840, 1_259), (841, 59 + 4 * 1_200)], ids=["on the offset", "899 ahead"])
def test_the_promise_speaks_of_the_ticks_behind_its_bound(clock, first):
    """Start-up ends with tick 59, and the bound is a cycle of 900 ticks with its dwell of 300. At clock 840 the pickup
    is on the offset; at 841 the counter is 899 ticks ahead, which three more cycles correct."""
    cabinet = {"pattern": 1, "clock": clock, "cells": [["unit", 2, 300]]}
    text = trace({"version": 1, "rounds": 9, "ticks": 600, "cabinets": [cabinet]})
    (street,) = told.streets_of(text)[1]
    assert [(it.first, it.last) for it in offset.settled(street)] == [(first, 5_400)]
