"""What seeds draw: how many come, in which order, and what is lost."""

import json
import math

from streettools.sweep.drawn import faults_of, inputs_of


def drawn(seed, hours=10, **row):
    """Returns the inputs of an hour or more, by rounds of a second."""
    table = {"flow": [{"cabinet": 1, "phase": 4} | row], "occupied": 2}
    return inputs_of(json.dumps(table), seed, 3600 * hours, 10).values()


def test_as_many_people_come_as_the_rate_says():
    count = sum(len(drawn(seed, pedestrians=60)) for seed in range(10))
    assert abs(count - 6000) < 4 * math.sqrt(6000)


def test_a_detector_goes_on_and_off_in_turn_and_stays_on_for_its_time():
    values = drawn(1, vehicles=900)
    assert [it["on"] for it in values] == [place % 2 == 0 for place in range(len(values))]
    lengths = [off["round"] - on["round"] for on, off in zip(values[::2], values[1::2])]
    assert min(lengths) == 2 and max(lengths) > 2
    assert all(one["round"] <= two["round"] for one, two in zip(values, values[1:]))


def test_a_seed_gives_the_same_again_and_another_seed_does_not():
    first = drawn(1, vehicles=100)
    inputs_of.cache_clear()
    assert drawn(1, vehicles=100) == first != drawn(2, vehicles=100)


def test_as_many_messages_are_lost_as_the_share_says():
    lost = faults_of(json.dumps({"lose": 0.1, "ways": ["down"], "streams": ["poll"]}), 1, 5000, 2)
    assert abs(len(lost) - 1000) < 4 * math.sqrt(900)
    assert {(it["kind"], it["way"], it["stream"], it["index"]) for it in lost} == {("lose", "down", "poll", 0)}
    assert faults_of(json.dumps({"lose": 0}), 1, 100, 2) == ()
