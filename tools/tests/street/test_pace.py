"""Time goes on at its speed, stands, and is stepped; a machine that stood still makes up for a minute."""

from streettools.street.pace import Pace
from streettools.street.panel.streams import STAYS, Streams


class Clock:
    """A clock that the test sets."""

    def __init__(self):
        self.now = 100.0

    def __call__(self):
        return self.now


def test_ticks_are_due_at_the_speed():
    clock = Clock()
    pace = Pace(2.0, clock)
    clock.now += 1.0
    assert pace.due() == 20
    clock.now += 0.125
    assert pace.due() == 2
    clock.now += 0.125
    assert pace.due() == 3
    assert pace.due() == 0


def test_time_that_stands_goes_on_by_steps_alone():
    clock = Clock()
    pace = Pace(0.0, clock)
    clock.now += 50
    assert pace.due() == 0
    pace.step(7)
    assert (pace.due(), pace.due()) == (7, 0)


def test_what_was_due_before_a_change_of_speed_stays_due():
    clock = Clock()
    pace = Pace(1.0, clock)
    clock.now += 3
    pace.set(0.0)
    clock.now += 3
    assert pace.due() == 30


def test_a_machine_that_stood_still_makes_up_for_a_minute():
    clock = Clock()
    pace = Pace(1.0, clock)
    clock.now += 10_000
    assert pace.due() == 600
    clock.now += 0.5
    assert pace.due() == 5


def test_so_many_vehicles_come_as_were_asked_for():
    streams = Streams(seed=1)
    streams.set(1, 4, 360, 0)
    came = [(now, it) for now in range(360_000) for it in streams.due(now)]
    on = [now for now, it in came if it == b"veh 1 4 on"]
    off = [now for now, it in came if it == b"veh 1 4 off"]
    # ten hours of 360 vehicles an hour: 3,600, with a spread of 60
    assert 3300 < len(on) < 3800
    assert [b - a for a, b in zip(on, off)] == [STAYS] * len(off)


def test_a_stream_that_ends_leaves_no_vehicle_on_its_detector():
    streams = Streams(seed=1)
    streams.set(2, 8, 3600, 0)
    came = [it for now in range(100) for it in streams.due(now)]
    streams.set(2, 8, 0, 100)
    came += [it for now in range(100, 200) for it in streams.due(now)]
    assert came.count(b"veh 2 8 on") == came.count(b"veh 2 8 off") > 0
    assert streams.rates() == {}
