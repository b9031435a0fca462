"""Totals of trips, and how two plans differ over the same seeds: means with intervals of 95 %, after Student."""

import math
import statistics
from collections.abc import Iterable
from typing import NamedTuple

from .records import Kind, Trip

TWO_SIDED_95 = (
    12.706, 4.303, 3.182, 2.776, 2.571, 2.447, 2.365, 2.306, 2.262, 2.228,
    2.201, 2.179, 2.160, 2.145, 2.131, 2.120, 2.110, 2.101, 2.093, 2.086,
    2.080, 2.074, 2.069, 2.064, 2.060, 2.056, 2.052, 2.048, 2.045, 2.042,
)  # fmt: skip
"""The two-sided points of 95 % of Student's distribution, by 1 to 30 degrees of freedom."""
NORMAL = 1.960
ALL, BUSES, PERSONS = "all vehicles", "buses", "persons"


class Total(NamedTuple):
    """How many trips, their mean delay in seconds, their mean number of stops."""

    trips: int
    delay: float
    stops: float


class Mean(NamedTuple):
    """A mean, and half of its interval of 95 %, None if there is only one value."""

    value: float
    half: float | None

    def __str__(self) -> str:
        return f"{self.value:.2f}" if self.half is None else f"{self.value:.2f} ± {self.half:.2f}"


def point(freedom: int) -> float:
    """Returns the two-sided point of 95 % of Student's distribution: by the table, and beyond it by a series in one
    over the degrees of freedom, which is right to 0.001 there."""
    if freedom <= len(TWO_SIDED_95):
        return TWO_SIDED_95[freedom - 1]
    first = (NORMAL**3 + NORMAL) / 4
    second = (5 * NORMAL**5 + 16 * NORMAL**3 + 3 * NORMAL) / 96
    return NORMAL + first / freedom + second / freedom**2


def mean_of(values: list[float]) -> Mean:
    """Returns the mean of values with its interval."""
    value = statistics.fmean(values)
    if len(values) < 2:
        return Mean(value, None)
    return Mean(value, point(len(values) - 1) * statistics.stdev(values) / math.sqrt(len(values)))


def beyond(value: float, freedom: int) -> float:
    """Returns how likely it is that Student's t with these degrees of freedom is at least as far from 0, on either
    side, as a value: by the finite sums for whole degrees of freedom (Abramowitz and Stegun, 26.7.3 and 26.7.4)."""
    angle = math.atan(abs(value) / math.sqrt(freedom))
    power = math.cos(angle) if freedom % 2 else 1.0
    total = term = power if freedom > 1 else 0.0
    for k in range(2 + freedom % 2, freedom, 2):
        term *= math.cos(angle) ** 2 * (k - 1) / k
        total += term
    inner = math.sin(angle) * total
    return max(0.0, 1.0 - (2.0 / math.pi * (angle + inner) if freedom % 2 else inner))


def paired_p(differences: list[float]) -> float | None:
    """Returns the p value of the paired t test: how likely differences of a mean at least as far from 0 are, if there
    is none; None for one pair only."""
    if len(differences) < 2:
        return None
    mean, deviation = statistics.fmean(differences), statistics.stdev(differences)
    if not deviation:
        return 0.0 if mean else 1.0
    return beyond(mean * math.sqrt(len(differences)) / deviation, len(differences) - 1)


def total_of(trips: Iterable[Trip]) -> Total | None:
    """Returns the total of some trips, None if there are none."""
    rows = [(it.delay, it.stops) for it in trips]
    if not rows:
        return None
    return Total(len(rows), statistics.fmean(it[0] for it in rows), statistics.fmean(it[1] for it in rows))


def counted(trips: Iterable[Trip], warm: float, seconds: float) -> list[Trip]:
    """Returns the trips that count: those that wanted to start neither in the first nor in the last `warm` seconds."""
    return [it for it in trips if warm <= it.depart < seconds - warm]


def totals_of(trips: list[Trip], routes: Iterable[str]) -> dict[str, Total]:
    """Returns the totals of trips: of all vehicles, of named routes, of buses, of persons; groups without trips are
    left out."""
    groups = {ALL: [it for it in trips if it.kind is not Kind.PERSON]}
    groups |= {name: [it for it in trips if it.route == name] for name in routes}
    groups[BUSES] = [it for it in trips if it.kind is Kind.BUS]
    groups[PERSONS] = [it for it in trips if it.kind is Kind.PERSON]
    found = {name: total_of(rows) for name, rows in groups.items()}
    return {name: total for name, total in found.items() if total is not None}
