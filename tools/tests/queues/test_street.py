"""A street of queues under signals of fixed times: nobody is lost or passes on red, platoons come when they are due."""

from itertools import pairwise

import pytest

from .conftest import FixedTime, Flow, Onward, Saturation, flow, ran
from streettools.cosim.queues.volumes import Detectors


def street_of_three(dispersion: float = 0.35, share: float = 0.9) -> list[Flow]:
    """Returns three cabinets in a row, 20 s from each to the next."""
    onward = [Onward(number, "EB", 20.0, share, dispersion) for number in (2, 3)] + [None]
    return [flow(500, cabinet=number, lanes=2 if number == 2 else 1, onward=onward[number - 1]) for number in (1, 2, 3)]


@pytest.mark.parametrize("seed", range(1, 9))
@pytest.mark.parametrize("step", [10, 5])
def test_all_who_came_have_left_or_stand_in_a_queue_or_are_between_two_stop_lines(seed, step):
    seconds = 900
    street, signals = ran(street_of_three(), FixedTime(90, 30, (0, 20, 40)), seconds, seed, step)
    left = standing = between = 0
    for vehicle, told in zip(street.demand.vehicles, street.passages):
        if len(told) == len(vehicle.way.flows):
            left += 1
            continue
        reached = told[-1][1] + vehicle.travels[len(told) - 1] if told else vehicle.entry
        standing += reached < seconds
        between += reached >= seconds
    assert left + standing + between == len(street.demand.vehicles)
    assert standing == sum(len(it.queue) for it in street.lines)
    assert all(reached < seconds for it in street.lines for reached, _ in it.queue)


@pytest.mark.parametrize("seed", range(1, 5))
def test_nobody_passes_on_red_or_too_late_in_yellow_and_headways_are_kept(seed):
    flows = [flow(700, lanes=lanes, saturation=Saturation(1700, 2.5, 1.5)) for lanes in (1, 2)]
    flows[1] = flow(700, lanes=2, name="EBX", saturation=Saturation(1700, 2.5, 1.5))
    street, signals = ran(flows, FixedTime(80, 25), 1800, seed)
    spans = signals.greens[1, 2]
    for place, it in enumerate(flows):
        passed = sorted(told[0] for told, vehicle in zip(street.passages, street.demand.vehicles)
                        if told and vehicle.way.flows[0] == place)  # fmt: skip
        for arrived, released in passed:
            assert released >= arrived
            assert any(on <= released <= off + 1.5 + 1e-6 for on, off in zip(spans.starts, spans.ends))
        released = [it for _, it in passed]
        assert released == sorted(released)
        assert all(later - one >= 3600 / 1700 - 1e-6 for one, later in zip(released, released[it.lanes :]))


def test_platoons_without_dispersion_come_after_exactly_the_time_of_travel():
    street, _ = ran(street_of_three(0.0, 1.0), FixedTime(90, 30, (0, 20, 40)), 1800)
    for told in street.passages:
        for (_, released), (arrived, _) in pairwise(told):
            assert arrived == pytest.approx(released + 20.0, abs=1e-9)


def test_offsets_that_are_the_time_of_travel_let_a_platoon_pass_and_others_stop_it():
    def stopped(offsets: tuple[int, ...]) -> float:
        street, _ = ran(street_of_three(0.0, 1.0), FixedTime(90, 30, offsets), 3600)
        waits = [released - arrived for told in street.passages for arrived, released in told[1:]]
        return sum(it >= 2.0 for it in waits) / len(waits)

    assert stopped((0, 20, 40)) < 0.02
    assert stopped((0, 65, 40)) > 0.45


def test_a_step_of_a_tenth_gives_the_same_passages_where_signals_are_fixed():
    """What is seen by detectors changes nothing here, and signals are followed at their ticks."""
    one, _ = ran(street_of_three(), FixedTime(90, 30, (0, 20, 40)), 600, 3, 10)
    other, _ = ran(street_of_three(), FixedTime(90, 30, (0, 20, 40)), 600, 3, 1)
    assert [it for it in one.passages if it] == [it for it in other.passages if it]


def asked(flows: list[Flow], seconds: int, green: int = 30) -> list[tuple[int, list[bytes]]]:
    """Returns what a street asked of its cabinets: the tick and the requests, where there were any."""
    cabinets = FixedTime(90, green)
    ran(flows, cabinets, seconds)
    return [it for it in cabinets.asked if it[1]]


def test_a_vehicle_that_waits_at_the_line_is_seen_until_it_is_gone():
    """One vehicle comes in red, at 31.6 s: it is told at the next step, and stands until the green at 90 s."""
    only = [flow(3, detectors=Detectors(True, 0.0, 0.5))]
    for seed in range(1, 200):
        street, _ = ran(only, FixedTime(90, 30), 180, seed)
        if len(street.demand.vehicles) == 1 and 34 < street.demand.vehicles[0].entry < 88:
            break
    entry = street.demand.vehicles[0].entry
    cabinets = FixedTime(90, 30)
    ran(only, cabinets, 180, seed)
    told = [it for it in cabinets.asked if it[1]]
    assert told[0] == (10 * (int(entry) + 1), [b"veh 1 2 on"])
    assert told[1] == (10 * 95, [b"veh 1 2 off"])
    assert street.passages[0][0][1] == pytest.approx(90 + 2.0 + 2.0)


def test_a_vehicle_that_passes_between_two_steps_is_told_as_on_and_off():
    told = asked([flow(60, detectors=Detectors(False, 3.0, 0.2))], 600, green=80)
    assert any(it[1] == [b"veh 1 2 on", b"veh 1 2 off"] for it in told)
    state = b"off"
    for _, requests in told:
        for it in requests:
            now = it.split()[-1]
            assert now != state
            state = now


def test_the_detector_ahead_sees_a_vehicle_its_seconds_before_the_line():
    flows = [flow(20, detectors=Detectors(False, 3.0, 0.5))]
    cabinets = FixedTime(90, 30)
    street, _ = ran(flows, cabinets, 600)
    first = street.demand.vehicles[0].entry
    assert next(it[0] for it in cabinets.asked if it[1]) == 10 * (int(first - 3.0) + 1)


def test_persons_press_the_button_of_their_crossing_once_a_step():
    from streettools.cosim.queues.demand import demand_of
    from streettools.cosim.queues.signals import Signals
    from streettools.cosim.queues.street import Steps, Street
    from streettools.cosim.queues.volumes import Crossing, Volumes

    volumes = Volumes("", (flow(0),), crossings=(Crossing(1, 4, 3000.0),))
    demand = demand_of(volumes, 1, 0.0, 100.0)
    cabinets = FixedTime(90, 30)
    Street(volumes, demand, Steps(100, 10)).run(cabinets, Signals(1), lambda step: None)
    pressed = {tick // 10 for tick, requests in cabinets.asked if requests == [b"ped 1 4"]}
    assert pressed == {int(it.at) + 1 for it in demand.persons if it.at < 99}
