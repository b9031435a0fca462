"""What a file of volumes may say, and the one line that refuses what it may not."""

import json
import tomllib

import pytest

from .conftest import TOP
from streettools.cosim.queues import study
from streettools.cosim.queues.checks import check
from streettools.cosim.queues.volumes import Detectors, Onward, Saturation, volumes_of
from streettools.shared.fault import Fault

SCENARIO = {"version": 1, "rounds": 60, "ticks": 10, "cabinets": [{"pattern": 1, "clock": 252_000}, {"pattern": 1}]}
VOLUMES = """\
title = "Two"
saturation = 1900
profile = "day"
[profiles.day]
"06:30" = 0.5
"07:00" = 1
until = "8:00"
[[cabinet]]
number = 1
movements = [
  { name = "EBT", phase = 2, volume = 600, lanes = 2, to = "2 EB", travel = 20, share = 0.9 },
  { name = "WBT", phase = 6, volume = 400 },
  { name = "NBT", phase = 8, volume = 100, saturation = 1700, headway = 1.5, stop_detector = false },
  { name = "SBT", phase = 4, volume = 90 },
]
crossings = [{ phase = 4, persons = 20 }]
idle = [1, 3, 5, 7]
[[cabinet]]
number = 2
movements = [
  { name = "EBT", phase = 2, volume = 500 },
  { name = "WBT", phase = 6, volume = 400 },
  { name = "NBT", phase = 8, volume = 100 },
  { name = "SBT", phase = 4, volume = 90 },
]
idle = [1, 3, 5, 7]
"""


def volumes(text: str = VOLUMES):
    """Returns what a file says."""
    return volumes_of(tomllib.loads(text))


def test_what_is_said_is_read_and_what_holds_around_it_is_taken_where_nothing_is_said():
    read = volumes()
    east, _, north, _, *_ = read.flows
    assert (east.cabinet, east.approach, east.lanes, east.volume, east.profile) == (1, "EB", 2, 600, "day")
    assert east.onward == Onward(2, "EB", 20.0, 0.9, 0.35)
    assert east.saturation == Saturation(1900, 2.0, 2.0) and north.saturation == Saturation(1700, 2.0, 2.0)
    assert north.headway == 1.5 and north.detectors == Detectors(False, 3.0, 0.5) and north.onward is None
    assert read.profiles["day"].rates(7 * 3600 - 60, 120) == [(60, 0.5), (120, 1.0)]
    assert read.crossings[0].phase == 4 and (1, 3) in read.idle
    check(read, SCENARIO, 60)


def changed(one: str, other: str, count: int = 1) -> str:
    """Returns the file with a text put in place of another, at its first places."""
    assert one in VOLUMES
    return VOLUMES.replace(one, other, count)


@pytest.mark.parametrize(
    ("text", "line"),
    [
        (changed('name = "SBT", phase = 4,', 'name = "SBT",'), "volumes: movement SBT of cabinet 1 has no phase"),
        (
            changed("idle = [1, 3, 5, 7]", "idle = [1, 3, 5]"),
            "volumes: phase 7 of cabinet 1 has no movement and no crossing (idle lists phases without traffic)",
        ),
        (
            changed("volume = 600", "volume = -1"),
            "volumes: cabinet 1, movement EBT: volume is -1, and has to be 0 to 100000",
        ),
        (changed("phase = 6", "phase = 9"), "volumes: WBT of cabinet 1: phase 9 is not enabled in cabinet 1"),
        (changed("number = 2", "number = 3"), "volumes: EBT of cabinet 3: the scenario has no cabinet 3"),
        (changed("number = 2", "number = 1"), "volumes: cabinet 1 is listed twice"),
        (
            changed('until = "8:00"', 'until = "7:60"'),
            'volumes: profiles.day.until has to be a time of day, as "09:00"',
        ),
        (
            changed('"06:30" = 0.5', '"07:30" = 0.5'),
            "volumes: profiles.day needs rising times of day, all before until",
        ),
        (
            changed('"06:30" = 0.5\n"07:00" = 1\n', '"07:10" = 1\n'),
            "volumes: profile day covers 7:10 to 8:00, and the run is from 7:00 to 7:01",
        ),
        (changed('until = "8:00"', 'until = "7:00"').replace('"07:00" = 1\n', ""),
         "volumes: profile day covers 6:30 to 7:00, and the run is from 7:00 to 7:01"),
        (changed('profile = "day"', 'profile = "dai"'), "volumes: EBT of cabinet 1: no profile dai; did you mean day?"),
        (
            changed('to = "2 EB"', 'to = "2 WX"'),
            "volumes: EBT of cabinet 1 goes to 2 WX, an approach that doesn't exist",
        ),
        (
            changed('to = "2 EB"', 'to = "next"'),
            'volumes: cabinet 1, movement EBT: to has to be a cabinet and an approach, as "2 EB"',
        ),
        (
            changed("travel = 20, ", ""),
            "volumes: cabinet 1, movement EBT: travel is missing: the seconds from stop line to stop line",
        ),
        (changed('"WBT"', '"EBT"'), "volumes: cabinet 1 has two movements EBT"),
        (changed("volume = 500", "volume = 0"),
         "volumes: approach EB of cabinet 2 has no volumes, which are the shares of those who come from elsewhere"),
        (changed("lanes = 2", "lane = 2"), "volumes: cabinet 1, movement EBT: lane is unknown; did you mean lanes?"),
        (
            changed("headway = 1.5", "headway = 40"),
            "volumes: NBT of cabinet 1: 100 vehicles an hour can't come 40 s apart in 1 lane",
        ),
        (
            changed("{ phase = 4, persons", "{ phase = 1, persons"),
            "volumes: crossing of cabinet 1: phase 1 of cabinet 1 has no walk",
        ),
        (changed("title", "titel"), "volumes: titel is unknown; did you mean title?"),
    ],
)  # fmt: skip
def test_what_does_not_fit_is_refused_in_one_line(text, line):
    with pytest.raises(Fault) as fault:
        check(volumes(text), SCENARIO, 60)
    assert str(fault.value) == line


def test_vehicles_that_never_leave_are_refused():
    from streettools.cosim.queues.demand import demand_of

    text = changed("volume = 500 }", 'volume = 500, to = "2 EB", travel = 9 }')
    with pytest.raises(Fault, match="their way has no end"):
        demand_of(volumes(text), 1, 7 * 3600.0, 60.0)


@pytest.mark.parametrize("text", [b"{", b"[]", b'{"cabinets":[]}', b'{"cabinets":[{}],"rounds":"1","ticks":10}'])
def test_what_is_no_scenario_is_refused(text):
    with pytest.raises(Fault, match="street.json is not a valid scenario"):
        study.read_scenario(text, "street.json")


def test_the_volumes_of_the_street_of_four_fit_its_scenario_for_an_hour():
    scenario = json.loads((TOP / "scenarios/street.json").read_text())
    check(volumes((TOP / "scenarios/street.volumes.toml").read_text()), scenario, 3600)
