"""The report, by studies whose numbers are worked by hand."""

import pathlib

import pytest

from .conftest import TOP  # noqa: F401 (puts the tools on the path)
from streettools.cosim import movements, records, report
from streettools.cosim.queues.signals import Signals, Spans
from streettools.cosim.records import Kind, Movement, Passage, QueueSample, Study, Trip


def spans(*pairs: tuple[float, float]) -> Spans:
    """Returns when something is shown."""
    found = Spans()
    for start, end in pairs:
        found.turn(start, True)
        found.turn(end, False)
    return found


GREENS = {(1, 2): spans((0, 20), (60, 80), (120, 140)), (1, 4): spans((30, 50), (90, 110))}


def passage(arrived: float, released: float, stopped: bool, on_green: bool, movement: str = "EBT") -> Passage:
    """Returns a passage at cabinet 1."""
    phase = 2 if movement == "EBT" else 4
    return Passage(1, movement, phase, arrived, released, released - arrived, stopped, on_green)


def trip(name: str, *passages: Passage, kind: Kind = Kind.CAR, arrive: bool = True) -> Trip:
    """Returns a trip with such passages."""
    end = passages[-1].released if passages and arrive else None
    delay, stops = sum(it.delay for it in passages), sum(it.stopped for it in passages)
    return Trip(name, "EBT 1", kind, passages, passages[0].arrived if passages else 0.0, end, delay, stops)


def study(trips: list[Trip], queues: list[QueueSample] = [], warm: float = 0.0) -> Study:
    """Returns a study of 150 s."""
    known = [Movement(1, "EBT", 2), Movement(1, "SBT", 4), Movement(1, "ped 4", 4)]
    return Study(1, known, pathlib.Path("none"), trips, queues, 150.0, warm)


FOUR = [
    trip("1", passage(5, 5, False, True)),
    trip("2", passage(30, 64, True, False)),
    trip("3", passage(40, 66, True, False)),
    trip("4", passage(100, 124, True, False)),
]


def row(of: Study, movement: str = "EBT") -> dict:
    """Returns the row of a movement."""
    return next(it for it in report.collect(of, GREENS)["movements"] if it["movement"] == movement)


def test_delay_stops_and_arrivals_on_green_are_means_over_the_vehicles_that_passed():
    told = row(study(FOUR))
    assert (told["vehicles"], told["delay"], told["stops"], told["on_green"]) == (4, 21.0, 0.75, 0.25)
    assert told["delay_95"] == 34 and told["level"] == "C"


def test_green_is_the_share_of_the_time_and_the_platoon_ratio_is_arrivals_on_green_by_it():
    told = row(study(FOUR))
    assert told["green"] == 0.4 and told["greens"] == 3
    assert told["platoon_ratio"] == 0.62


def test_a_green_that_leaves_somebody_behind_who_stood_there_as_it_began_is_a_split_failure():
    waits = [trip("1", passage(50, 130, True, False)), trip("2", passage(55, 70, True, False))]
    assert row(study(waits))["split_failures"] == 1
    comes_later = [trip("1", passage(65, 130, True, True))]
    assert row(study(comes_later))["split_failures"] == 0
    assert movements.failed([10.0, 60.0, 120.0], [passage(5, 130, True, False)]) == {10.0, 60.0}


def test_a_queue_holds_from_a_sample_to_the_next_and_what_is_left_is_told():
    samples = [QueueSample(1, "EBT", at, count) for at, count in ((30, 1), (40, 3), (60, 0), (100, 2))]
    told = row(study(FOUR, samples))
    # (10 x 1 + 20 x 3 + 50 x 2) / 150
    assert (told["queue_mean"], told["queue_greatest"], told["left"]) == (1.13, 3, 2)
    later = row(study(FOUR, samples, 50.0))
    # 10 x 3 of the sample before, and 50 x 2, of 100 s
    assert later["queue_mean"] == 1.3


def test_who_started_before_the_time_that_is_left_out_is_not_counted():
    told = row(study(FOUR, warm=35.0))
    assert (told["vehicles"], told["delay"], told["greens"]) == (2, 25.0, 2)
    assert told["green"] == round(40 / 115, 3)


def test_routes_have_the_time_of_travel_of_those_who_came_to_their_end():
    two = [*FOUR, trip("5", passage(120, 130, True, True), arrive=False)]
    routes = report.collect(study(two), GREENS)["routes"]
    assert routes == [
        {"kind": "car", "route": "EBT 1", "trips": 5, "arrived": 4, "travel": 21.0, "delay": 21.0, "stops": 0.75}
    ]


def test_persons_are_told_by_their_crossing_and_not_among_vehicles():
    walks = Trip("person 1", "ped 4 1", Kind.PERSON, (Passage(1, "ped 4", 4, 10, 32, 22, True, False),), 10, 32, 22, 1)
    value = report.collect(study([*FOUR, walks]), GREENS)
    assert value["crossings"] == [{"cabinet": 1, "movement": "ped 4", "phase": 4, "persons": 1, "delay": 22.0}]
    assert value["cabinets"][0]["vehicles"] == 4
    assert [it["kind"] for it in value["kinds"]] == ["car", "person"]


def test_an_overlap_is_green_with_any_of_its_parents():
    parents = Movement(1, "NBR", None, (2, 4))
    found = movements.greens_of(parents, {(1, 2): spans((0, 20), (60, 80)), (1, 4): spans((20, 50), (90, 110))})
    assert list(zip(found.starts, found.ends)) == [(0, 50), (60, 80), (90, 110)]


@pytest.mark.parametrize(("delay", "letter"), [(10, "A"), (10.1, "B"), (35, "C"), (55, "D"), (80, "E"), (80.1, "F")])
def test_the_level_of_service_is_that_of_the_highway_capacity_manual(delay, letter):
    assert report.level(delay) == letter


def test_greens_come_from_the_frame_lines_of_a_trace():
    signals = Signals(1)
    line = "F 1 {} {} DDDWDDDDDDDDDDDD F 0 0 0".format
    signals.shown([line(0, "R" * 16).encode(), line(60, "RG" + "R" * 14).encode(), line(155, "RY" + "R" * 14).encode()])
    signals.close(30.0)
    assert list(zip(signals.greens[1, 2].starts, signals.greens[1, 2].ends)) == [(6.0, 15.5)]
    assert signals.walks[1, 4].first(3.0) == 3.0


def test_an_empty_study_has_blanks_in_place_of_means():
    value = report.collect(study([]), GREENS)
    assert value["movements"][0]["delay"] is None and value["movements"][0]["split_failures"] == 0
    assert " - " in report.text(value)


def test_a_study_that_is_written_is_read_as_it_was(tmp_path):
    one = study(FOUR, [QueueSample(1, "EBT", 30, 1)])
    records.save(one, tmp_path / "study.json")
    read = records.load(tmp_path / "study.json")
    assert report.collect(read, GREENS) == report.collect(one, GREENS)
