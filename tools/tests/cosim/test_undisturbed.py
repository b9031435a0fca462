"""The share of the time in which coordination was undisturbed, by traces whose ticks are worked by hand.

Start-up ends with tick 59, and the bound is a cycle of 900 ticks with its dwell of 100. At clock 840 a cabinet is
picked up on its offset, so the promise speaks of tick 1059 and all that follow undisturbed."""

import json
import subprocess

import pytest

from .conftest import PROGRAM
from streettools.cosim import undisturbed


def shares(cabinets: list[dict], start: float = 0, end: float = 240, **more: object) -> dict[int, float]:
    """Returns the shares of a run of 240 s."""
    scenario = {"version": 1, "rounds": 4, "ticks": 600, "cabinets": cabinets} | more
    ran = subprocess.run([PROGRAM, "run"], input=json.dumps(scenario).encode(), capture_output=True, check=True)
    return undisturbed.shares(ran.stdout, start, end)


ON, FREE = {"pattern": 1, "clock": 840}, {}


def test_the_share_of_cabinets_on_their_offset_and_in_free_operation():
    found = shares([ON, FREE])
    assert found == {1: pytest.approx(1342 / 2400), 2: 0} and undisturbed.mean(found) == pytest.approx(671 / 2400)


@pytest.mark.parametrize(
    ("start", "end", "due"), [(120, 240, 1), (100, 120, 142 / 200), (0, 100, 0), (0, 105.9, 1 / 1059)]
)
def test_only_the_time_that_is_asked_for_counts(start, end, due):
    assert shares([ON], start, end) == {1: pytest.approx(due)}


def test_the_end_of_the_backup_time_disturbs():
    """The command ends with 200 s: the promise speaks of the ticks 1059 to 1999."""
    assert shares([ON | {"cells": [["unit", 5, 200]]}]) == {1: pytest.approx(941 / 2400)}


def test_a_preempt_disturbs_until_the_bound_is_over_again():
    """It comes at 130 s, so less than the bound is left behind it: the promise speaks of the ticks 1059 to 1300."""
    inputs = [{"round": 131, "cabinet": 1, "preempt": 1, "on": True}]
    inputs += [{"round": 141, "cabinet": 1, "preempt": 1, "on": False}]
    cells = [["preempt", 1, 5, 10], ["preempt", 1, 10, 5], ["preempt", 1, 13, "0206"]]
    found = shares([ON | {"cells": cells}], rounds=240, ticks=10, inputs=inputs)
    assert found == {1: pytest.approx(242 / 2400)}


def test_a_text_that_is_no_trace_and_no_time_have_no_share():
    assert undisturbed.shares(b"S {}\n", 0, 10) == undisturbed.shares(b"", 10, 10) == {}
    assert undisturbed.mean({}) is None
