"""Means and intervals of a comparison, by tables and by hand."""

import pytest

from streettools.cosim import totals
from streettools.cosim.records import Kind, Trip


@pytest.mark.parametrize(
    ("freedom", "due"),
    [(1, 12.706), (2, 4.303), (9, 2.262), (30, 2.042), (40, 2.021), (60, 2.000), (120, 1.980), (1000, 1.962)],
)
def test_points_of_students_distribution_are_those_of_the_tables(freedom, due):
    assert totals.point(freedom) == pytest.approx(due, abs=0.001)


def test_an_interval_worked_by_hand():
    """1, 2 and 3 have mean 2 and standard deviation 1: half an interval is 4.303 / sqrt(3)."""
    mean = totals.mean_of([1.0, 2.0, 3.0])
    assert (mean.value, mean.half) == (2.0, pytest.approx(2.4843, abs=0.001))


SLEEP = [1.2, 2.4, 1.3, 1.3, 0.0, 1.0, 1.8, 0.8, 4.6, 1.4]
"""Hours of sleep that ten patients gained by one drug more than by another (Student, Biometrika 6, 1908)."""


def test_the_paired_test_of_students_own_example():
    """t = 4.0621 with 9 degrees of freedom: p = 0.002833, as textbooks have it of these data."""
    assert totals.paired_p(SLEEP) == totals.paired_p([-it for it in SLEEP]) == pytest.approx(0.002833, abs=5e-7)


@pytest.mark.parametrize(
    ("value", "freedom", "due"),
    [
        (1.0, 1, 0.5),  # of Cauchy's distribution: 1 - 2 atan(1) / pi
        (12.706, 1, 0.05),
        (4.303, 2, 0.05),
        (5.841, 3, 0.01),
        (2.776, 4, 0.05),
        (1.812, 10, 0.10),
        (3.250, 9, 0.01),
        (2.042, 30, 0.05),
        (1.962, 1000, 0.05),
        (0.0, 7, 1.0),
    ],
)
def test_p_values_are_those_of_students_tables(value, freedom, due):
    assert totals.beyond(value, freedom) == totals.beyond(-value, freedom) == pytest.approx(due, rel=0.002)


def test_equal_differences_and_one_alone_have_no_deviation():
    assert totals.paired_p([2.0, 2.0, 2.0]) == 0.0 and totals.paired_p([0.0, 0.0]) == 1.0
    assert totals.paired_p([3.0]) is None and totals.paired_p([]) is None


def test_one_value_has_no_interval():
    assert str(totals.mean_of([5.0])) == "5.00"


def trip(name: str, kind: Kind, depart: float, delay: float, stops: int) -> Trip:
    """Returns a trip without passages."""
    return Trip(name, name.rpartition(".")[0], kind, (), depart, depart + 60, delay, stops)


def test_trips_are_gathered_by_kind_and_route():
    trips = [
        trip("east.0", Kind.CAR, 10, 4, 1),
        trip("east.1", Kind.CAR, 20, 8, 0),
        trip("line.0", Kind.BUS, 30, 30, 2),
        trip("walk.0", Kind.PERSON, 40, 50, 1),
    ]
    found = totals.totals_of(trips, ["east", "west"])
    assert found["east"] == (2, 6, 0.5)
    assert found[totals.ALL] == (3, 14, 1)
    assert found[totals.BUSES] == (1, 30, 2) and found[totals.PERSONS] == (1, 50, 1)
    assert "west" not in found


def test_trips_at_both_ends_do_not_count():
    trips = [trip("a.0", Kind.CAR, second, 0, 0) for second in (0, 29, 30, 69, 70, 99)]
    assert [it.depart for it in totals.counted(trips, 30, 100)] == [30, 69]
