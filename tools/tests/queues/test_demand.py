"""Who comes: chance arrivals, profiles, turns by shares, platoons that spread, persons."""

import math
import random
from itertools import pairwise

import pytest

from .conftest import Flow, Onward, Volumes, flow
from streettools.cosim.queues.demand import arrivals, demand_of, travel
from streettools.cosim.queues.volumes import Crossing, Profile, volumes_of

HOUR = 3600.0


def entries(volumes: Volumes, seconds: float = 10 * HOUR, seed: int = 1, start: float = 0.0) -> list[float]:
    """Returns when vehicles come."""
    return [it.entry for it in demand_of(volumes, seed, start, seconds).vehicles]


def test_as_many_come_as_the_volume_says_and_their_gaps_are_exponential():
    came = entries(Volumes("", (flow(600),)))
    assert len(came) == pytest.approx(6000, abs=4 * math.sqrt(6000))
    gaps = [later - one for one, later in pairwise(came)]
    for least in (2.0, 6.0, 12.0):
        due = math.exp(-least * 600 / 3600)
        assert sum(it > least for it in gaps) / len(gaps) == pytest.approx(due, abs=0.03)


def test_a_least_headway_is_kept_in_each_lane_and_the_volume_stays():
    for lanes in (1, 2):
        came = entries(Volumes("", (flow(600, headway=2.0, lanes=lanes),)))
        assert min(later - one for one, later in pairwise(came)) >= 2.0 / lanes - 1e-9
        assert len(came) == pytest.approx(6000, abs=4 * math.sqrt(6000))


def test_a_profile_multiplies_the_volume_from_its_times_of_day_on():
    profile = Profile("day", ((6 * HOUR, 0.5), (8 * HOUR, 1.0), (9 * HOUR, 0.0)), 11 * HOUR)
    came = entries(Volumes("", (flow(1000, profile="day"),), profiles={"day": profile}), 4 * HOUR, start=7 * HOUR)
    by_hour = [sum(hour * HOUR <= it < (hour + 1) * HOUR for it in came) for hour in range(4)]
    assert by_hour[0] == pytest.approx(500, abs=90) and by_hour[1] == pytest.approx(1000, abs=130)
    assert by_hour[2:] == [0, 0]


def test_volumes_are_those_of_an_hour_under_a_profile_by_the_half_hour():
    """900 vehicles an hour, half of that from 7:00 on, all from 7:30 on, twice from 8:00 to 8:30."""
    steps = {"07:00": 0.5, "07:30": 1, "08:00": 2, "until": "08:30"}
    movement = {"name": "EBT", "phase": 2, "volume": 900, "profile": "halves"}
    read = volumes_of({"cabinet": [{"number": 1, "movements": [movement]}], "profiles": {"halves": steps}})
    came = entries(read, 1.5 * HOUR, start=7 * HOUR)
    for half, due in enumerate((225, 450, 900)):
        found = sum(half * HOUR / 2 <= it < (half + 1) * HOUR / 2 for it in came)
        assert found == pytest.approx(due, abs=4 * math.sqrt(due))


def test_nobody_comes_where_the_rate_is_zero_and_arrivals_go_on_after_it():
    came = list(arrivals(random.Random(1), [(100.0, 0.0), (200.0, 1.0), (300.0, 0.0), (400.0, 1.0)], 0.0))
    assert came and all(100 <= it < 200 or 300 <= it < 400 for it in came)
    assert any(it > 300 for it in came)


def test_the_same_seed_gives_the_same_and_another_seed_another():
    volumes = Volumes("", (flow(600),))
    assert demand_of(volumes, 7, 0.0, HOUR) == demand_of(volumes, 7, 0.0, HOUR)
    assert entries(volumes, HOUR, 7) != entries(volumes, HOUR, 8)


def test_a_factor_multiplies_all_volumes():
    assert len(entries(Volumes("", (flow(600),), factor=2.0))) == pytest.approx(12_000, abs=4 * math.sqrt(12_000))


def street_of_two(share: float, dispersion: float = 0.0) -> Volumes:
    """Returns two cabinets: a share of the first's vehicles goes on to the second, where one in four turns left."""
    onward = Onward(2, "EB", 20.0, share, dispersion)
    second = {"cabinet": 2, "approach": "EB"}
    return Volumes("", (flow(1000, onward=onward), Flow(name="EBT", phase=2, volume=300, **second),
                        Flow(name="EBL", phase=5, volume=100, **second)))  # fmt: skip


def test_vehicles_go_on_and_turn_by_shares_and_nobody_enters_within_the_street():
    came = demand_of(street_of_two(0.8), 1, 0.0, 10 * HOUR).vehicles
    assert all(it.way.flows[0] == 0 for it in came)
    on = [it for it in came if len(it.way.flows) == 2]
    assert len(on) / len(came) == pytest.approx(0.8, abs=0.02)
    assert sum(it.way.flows[1] == 2 for it in on) / len(on) == pytest.approx(0.25, abs=0.02)
    assert {it.way.route for it in came} == {"EBT 1", "EBT 1-2", "EBT 1, EBL 2"}


def test_without_dispersion_everybody_drives_exactly_the_time_of_travel():
    on = [it for it in demand_of(street_of_two(1.0), 1, 0.0, HOUR).vehicles]
    assert {it.travels for it in on} == {(20.0,)}


@pytest.mark.parametrize(("alpha", "seconds"), [(0.35, 20.0), (0.25, 40.0), (0.5, 30.0)])
def test_platoons_spread_as_robertsons_recurrence_says(alpha, seconds):
    """q'(t + beta T) = F q(t) + (1 - F) q'(t + beta T - 1), with F = 1 / (1 + alpha beta T), beta = 1 / (1 + alpha) and
    T in steps: so 1 - (1 - F)^(k + 1) of a platoon has come k steps after the first can be there. Here a step is 0.1
    s."""
    draw, beta = random.Random(1), 1 / (1 + alpha)
    drawn = [travel(draw, Onward(2, "EB", seconds, 1.0, alpha)) for _ in range(20_000)]
    assert min(drawn) >= beta * seconds - 1e-9
    assert sum(drawn) / len(drawn) == pytest.approx(seconds, rel=0.01)
    factor = 1 / (1 + alpha * beta * 10 * seconds)
    for steps in (10, 30, 60, 120, 240):
        due = 1 - (1 - factor) ** (steps + 1)
        assert sum(it <= beta * seconds + steps / 10 for it in drawn) / len(drawn) == pytest.approx(due, abs=0.02)


def test_persons_come_by_chance():
    volumes = Volumes("", (flow(0),), crossings=(Crossing(1, 4, 60.0),))
    assert len(demand_of(volumes, 1, 0.0, 10 * HOUR).persons) == pytest.approx(600, abs=100)
