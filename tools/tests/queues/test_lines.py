"""A stop line, by numbers that are worked by hand and by formulas of the field."""

import math

import pytest

from .conftest import FixedTime, Saturation, flow, ran
from streettools.cosim.queues.lines import StopLine


def line_of(count: int, lanes: int = 1, saturation: Saturation = Saturation()) -> StopLine:
    """Returns a stop line at which so many wait from second 0 on."""
    line = StopLine(lanes, saturation)
    line.queue.extend((0.0, number) for number in range(count))
    return line


@pytest.mark.parametrize(
    ("lanes", "flow_rate", "lost", "yellow", "green", "due"),
    [
        # effective green = green - lost + yellow; vehicles = effective green x saturation flow / 3600, each lane
        (1, 1800, 2, 2, 30, 15),
        (2, 1800, 2, 2, 30, 30),
        (1, 1800, 2, 0, 30, 14),
        (1, 1800, 0, 0, 30, 15),
        (3, 1200, 3, 1, 20, 18),
        (1, 1900, 2, 2, 38, 20),
    ],
)
def test_a_green_discharges_what_saturation_flow_gives_in_its_effective_length(
    lanes, flow_rate, lost, yellow, green, due
):
    line = line_of(100, lanes, Saturation(flow_rate, lost, yellow))
    line.opens(100.0)
    line.closes(100.0 + green)
    assert len(line.discharged(1000.0)) == due
    assert len(line.queue) == 100 - due


def test_the_first_vehicles_pass_a_headway_after_the_lost_time():
    line = line_of(3)
    line.opens(100.0)
    assert [it.released for it in line.discharged(200.0)] == [104.0, 106.0, 108.0]


def test_who_comes_on_green_without_a_queue_passes_at_once():
    line = StopLine(1, Saturation())
    line.opens(100.0)
    line.queue.extend([(103.5, 1), (110.0, 2), (111.0, 3)])
    assert [it.released for it in line.discharged(200.0)] == [103.5, 110.0, 112.0]


def test_who_reaches_the_line_early_in_yellow_passes_and_who_comes_later_waits():
    line = StopLine(1, Saturation(yellow=2.0))
    line.opens(100.0)
    line.closes(120.0)
    line.queue.extend([(121.9, 1), (124.0, 2)])
    assert [it.vehicle for it in line.discharged(200.0)] == [1]
    line.opens(200.0)
    assert [it.released for it in line.discharged(300.0)] == [204.0]


def test_one_who_waits_costs_the_other_lane_no_lost_time_beyond_its_own_passage():
    line = StopLine(2, Saturation())
    line.queue.append((90.0, 1))
    line.opens(100.0)
    line.queue.extend([(106.0, 2), (106.5, 3)])
    assert [it.released for it in line.discharged(200.0)] == [104.0, 106.0, 106.5]


def uniform_delay(cycle: float, green: float, degree: float) -> float:
    """Returns the uniform delay d1 of the Highway Capacity Manual: C (1 - g/C)^2 / 2 (1 - X g/C)."""
    return 0.5 * cycle * (1 - green / cycle) ** 2 / (1 - min(1.0, degree) * green / cycle)


def webster(cycle: float, green: float, per_hour: float, saturation: float) -> float:
    """Returns Webster's mean delay (Road Research Technical Paper 39, 1958), with the correction term."""
    share, rate = green / cycle, per_hour / 3600
    degree = per_hour / (share * saturation)
    random = degree**2 / (2 * rate * (1 - degree))
    correction = 0.65 * (cycle / rate**2) ** (1 / 3) * degree ** (2 + 5 * share)
    return uniform_delay(cycle, green, degree) + random - correction


def mean_delay(per_hour: float, cycle: int, green: int, hours: int, seed: int = 1) -> float:
    """Returns the mean delay of one lane under fixed times."""
    street, _ = ran([flow(per_hour)], FixedTime(cycle, green), hours * 3600, seed)
    delays = [released - arrived for told in street.passages for arrived, released in told]
    return sum(delays) / len(delays)


@pytest.mark.parametrize(("per_hour", "cycle", "green"), [(200, 90, 40), (500, 90, 40), (650, 90, 40), (300, 60, 20)])
def test_mean_delay_is_websters_within_a_tenth_and_a_headway(per_hour, cycle, green):
    """With lost time and the yellow that is used of 2 s each the effective green is the green. A discharged vehicle
    passes a headway after its place in a flow that runs like a fluid; half of that is the limit beside the tenth."""
    due = webster(cycle, green, per_hour, 1800)
    assert math.isclose(mean_delay(per_hour, cycle, green, 8), due, abs_tol=0.1 * due + 1.0)


def test_mean_delay_is_no_less_than_uniform_delay_and_grows_with_volume():
    means = [mean_delay(volume, 90, 40, 4) for volume in (100, 300, 500, 700)]
    assert means == sorted(means)
    for volume, mean in zip((100, 300, 500, 700), means):
        assert mean > uniform_delay(90, 40, volume / 800)
