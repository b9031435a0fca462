"""Saturation flow and lost time of lanes, worked by hand; queues of vehicles that creep or wait to get in."""

import pytest

from streettools.cosim import discharge, network, records
from streettools.cosim.records import Kind, LaneFlow, Movement, Passage, QueueSample, Trip, queue_samples

from .conftest import TEE, cosim, needs_sumo, run_tee

LANE = "in-east_2"


def lane() -> discharge.Approach:
    """Returns a lane of the T-intersection."""
    return next(it for it in discharge.approaches(network.read(TEE / "tee.net.xml"), {"t": 1}) if it.lane == LANE)


def history(*greens: tuple[float, float]) -> dict[str, list[tuple[float, str]]]:
    """Returns the states of a signal with greens for all links."""
    size = len(network.read(TEE / "tee.net.xml").links["t"])
    rows = [(0.0, "r" * size)]
    for start, end in greens:
        rows += [(start, "G" * size), (end, "y" * size)]
    return {"t": rows}


def test_lanes_before_a_signal_are_those_of_vehicles():
    found = discharge.approaches(network.read(TEE / "tee.net.xml"), {"t": 1})
    assert {it.lane for it in found} == {
        "in-west_1", "in-west_2", "in-west_3", "in-north_1", "in-north_2", "in-east_1", "in-east_2",
    }  # fmt: skip


def test_headway_is_of_those_after_the_fourth_and_lost_time_what_the_first_four_need_more():
    """The first green: 3.5, 6, 8.25, 10.5 s, then six more 2 s apart: 1800 an hour, and 10.5 - 4 x 2 = 2.5 s lost. The
    second begins with seven; three who pass 12 s later are no part of that queue."""
    times = [3.5, 6.0, 8.25, 10.5, 12.5, 14.5, 16.5, 18.5, 20.5, 22.5]
    passed = [(100.0 + at, True) for at in times] + [(122.9, False), (125.0, True)]
    passed += [(200.0 + at, True) for at in times[:7]] + [(200.0 + at + 10, True) for at in times[7:]]
    both = history((100.0, 130.0), (200.0, 240.0))
    assert discharge.lane_flow(lane(), both, {LANE: passed}) == LaneFlow(1, LANE, 1, 6, 1800, 2.5)
    assert discharge.lane_flow(lane(), history((200.0, 240.0)), {LANE: passed}) is None


@pytest.mark.parametrize(
    ("saturation", "lost", "line"),
    [
        (1800, 2.5, ""),
        (1890, 2.1, ""),
        (2200, 2.5, "saturation flow is 1800 vehicles an hour (1800 to 1800 in 1 lanes), lost time 2.5 s"),
        (1800, 0.5, "1800 and 0.5 s are assumed"),
    ],
)
def test_a_difference_is_said_beyond_five_percent_and_half_a_second(saturation, lost, line):
    found = discharge.difference([LaneFlow(1, LANE, 1, 6, 1800, 2.5)], saturation, lost)
    assert (line in found) if line else not found


def test_a_queue_has_who_creeps_and_who_waits_to_get_in():
    """Little's law: three who wait 10, 20 and 30 s, and one who still waits after 25 s."""

    def trip(name: str, arrived: float, released: float) -> Trip:
        row = Passage(1, "EBT", 2, arrived, released, released - arrived, False, False)
        return Trip(name, "east", Kind.CAR, (row,), 0.0, 90.0, 0.0, 0)

    trips = [trip("a", 10.0, 20.0), trip("b", 12.0, 32.0), trip("c", 20.0, 50.0)]
    trips.append(Trip("d", "east", Kind.CAR, (), 0.0, None, 0.0, 0, (1, "EBT", 45.0)))
    found = queue_samples(trips, [Movement(1, "EBT", 2)])
    assert found[:2] == [QueueSample(1, "EBT", 10.0, 1), QueueSample(1, "EBT", 12.0, 2)]
    ends = [*(it.second for it in found[1:]), 70.0]
    assert sum(it.vehicles * (end - it.second) for it, end in zip(found, ends)) == 10 + 20 + 30 + 25


FULL = """<routes>
    <vType id="car"/>
    <flow id="full" type="car" from="in-east" to="out-east" begin="0" end="300" period="1" departLane="2"/>
    <flow id="side" type="car" from="in-north" to="out-west" begin="0" end="300" period="3" departLane="best"/>
</routes>
"""


@needs_sumo
@pytest.mark.parametrize(("step", "least", "most"), [(0.1, 2000, 2500), (1, 1400, 1900)])
def test_steps_of_a_second_lower_the_saturation_flow_of_sumo(tee, step, least, most):
    """SUMO's usual drivers: about 2,200 vehicles an hour with steps of 0.1 s, less than 1,900 with steps of 1 s."""
    (tee / "tee.rou.xml").write_text(FULL)
    assert run_tee(tee, "--seconds", 280, "--step", step).status == 0
    text = (tee / "out/report.txt").read_text()
    (row,) = [line.split() for line in text.splitlines() if " in-east_2 " in line]
    assert least < int(row[4]) < most, row


@needs_sumo
def test_a_run_says_what_its_delays_depend_on(tee):
    (tee / "tee.rou.xml").write_text(FULL)
    words = ["--sumo", tee / "tee.sumocfg", "--map", tee / "tee.map.toml", "--scenario", tee / "tee.json"]
    ran = cosim("run", *words, "--seconds", 280, "--step", 1, "-o", tee / "out", raw=True)
    said = [it.removeprefix("cosim: ") for it in ran.said]
    assert any(it.startswith("steps of 1 s lower SUMO's saturation flow") for it in said), said
    assert any(it.startswith("saturation flow is") and "1800 and 2 s are assumed" in it for it in said), said


@needs_sumo
def test_who_never_got_into_the_network_is_in_the_queue_that_is_left(tee):
    """A vehicle a second wants to start, far more than a lane takes: all who haven't passed wait at the stop line."""
    (tee / "tee.rou.xml").write_text(FULL)
    assert run_tee(tee, "--seconds", 200).status == 0
    study = records.load(tee / "out/study.json")
    full = [it for it in study.trips if it.route == "full"]
    assert len(full) >= 195
    waiting = [it for it in full if it.waits is not None and it.waits[1] == "EBT"]
    assert len(waiting) > 50 and all(it.delay > 0 for it in waiting)
    last = [it for it in study.queues if it.movement == "EBT"][-1]
    assert last.vehicles == len(waiting)
