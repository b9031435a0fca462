"""Events of a sheet at times of day and at intersections by name, and what is wrong with them in words."""

import re
import tomllib

import pytest

from streettools.plan import names, reading
from streettools.shared.given import Unreadable

from .conftest import TOP

HEAD = """
[run]
rounds = 1800
ticks = {ticks}
[master]
clock = 07:00:00
[[intersection]]
name = "Oak & 1st"
[[intersection]]
name = "Oak & 2nd"
[events]
"""


def inputs(events: str, ticks: int = 10) -> dict:
    """Returns the scenario of a sheet with some events."""
    return reading.street_of(tomllib.loads(HEAD.format(ticks=ticks) + events)).scenario


def test_an_event_at_a_time_of_day_is_that_of_the_round_that_begins_then():
    """Rounds of a second from 7:00:00 on: round 1 begins at 7:00:00, round 901 at 7:15:00; of 5 s: round 181."""
    line = 'inputs = [{at = 07:15:00, cabinet = "oak & 2nd", ped = 4}, {at = "7:00", cabinet = 1, veh = 2, on = true}]'
    assert inputs(line)["inputs"] == [
        {"round": 901, "cabinet": 2, "ped": 4},
        {"round": 1, "cabinet": 1, "veh": 2, "on": True},
    ]
    assert [it["round"] for it in inputs(line, ticks=50)["inputs"]] == [181, 1]
    bus = "priority = [{at = 07:10:30, cabinet = 1, number = 1, class = 1, level = 1, phase = 2, arrival = 150, "
    assert inputs(bus + "departure = 200}]")["priority"][0]["round"] == 631


def test_an_intersection_may_be_named_by_a_part_of_its_name():
    """As for --cabinet of other commands."""
    assert inputs('inputs = [{at = 07:15:00, cabinet = "2nd", ped = 4}]')["inputs"][0]["cabinet"] == 2
    assert names.Names(intersections=[names.Intersection("Oak & 1st")]).number("1ST", 1) == 1


def test_the_block_of_a_bus_in_the_page_of_sheets_is_accepted():
    """docs/PLANS.md, "Events": the block as it is, in a sheet of that intersection. 600 s after 7:00:00 is round
    601."""
    page = (TOP / "docs/PLANS.md").read_text()
    block = next(it for it in re.findall(r"```toml\n(.*?)```", page, re.S) if "priority = " in it)
    sheet = HEAD.format(ticks=10).replace("Oak & 1st", "Main St & 1st Ave").replace("[events]\n", "") + block
    scenario = reading.street_of(tomllib.loads(sheet)).scenario
    assert scenario["priority"] == [
        {"round": 601, "cabinet": 1, "number": 1, "class": 1, "level": 1, "phase": 2, "arrival": 250, "departure": 310}
    ]


@pytest.mark.parametrize(
    ("item", "ticks", "words"),
    [
        ("{at = 06:59:59, cabinet = 1, ped = 4}", 10,
         "events, inputs 1: at 06:59:59 is not in the run, which is from 07:00:00 to 07:30:00: clock in [master] is "
         "its start, rounds in [run] its length"),
        ("{at = 07:00:03, cabinet = 1, ped = 4}", 50,
         "events, inputs 1: at 07:00:03 is within a round: rounds of 5 s begin at 07:00:00, and one at 07:00:00"),
        ("{at = 07:01:00, round = 3, cabinet = 1, ped = 4}", 10,
         "events, inputs 1: it has at and round: write one of them"),
        ('{at = 07:01:00, cabinet = "Elm", ped = 4}', 10,
         "events, inputs 1: no intersection is named 'Elm': 'Oak & 1st', 'Oak & 2nd'"),
        ('{at = 07:01:00, cabinet = "oak", ped = 4}', 10,
         "events, inputs 1: several intersections have a name with 'oak': 'Oak & 1st', 'Oak & 2nd'"),
        ('{at = 07:01:00, cabinet = "", ped = 4}', 10,
         "events, inputs 1: no intersection is named '': 'Oak & 1st', 'Oak & 2nd'"),
        ("{at = true, cabinet = 1, ped = 4}", 10,
         "events, inputs 1: expected a time of day, as 07:30:00, found True"),
    ],
)  # fmt: skip
def test_an_event_that_cant_be_placed_is_an_error_with_its_place(item, ticks, words):
    with pytest.raises(Unreadable) as raised:
        inputs(f"inputs = [{item}]", ticks)
    assert str(raised.value) == words
