"""The event log: each code of a small trace by hand, and durations read back by pandas."""

import io

import pandas
import pytest

from .conftest import SMALL, STREET, VECTORS

START = "2026-11-27T06:00:00"
SIDE_STREET = """\
06.0 131 254, 150 0, 0 2, 1 2, 0 6, 1 6, 82 4
16.0 4 2, 7 2, 8 2, 4 6, 7 6, 8 6
20.0 9 2, 10 2, 9 6, 10 6
21.5 11 2, 12 2, 11 6, 12 6, 31 1, 0 4, 1 4, 0 8, 1 8
24.0 81 4
31.5 4 4, 7 4, 8 4, 4 8, 7 8, 8 8
35.5 9 4, 10 4, 9 8, 10 8
37.0 11 4, 12 4, 11 8, 12 8, 31 2, 0 2, 1 2, 0 6, 1 6
"""


def logged(look, *words, given=None):
    """Returns the event log of a trace as pandas reads it."""
    text = look("events", "--start", START, *words, given=given)
    return pandas.read_csv(io.StringIO(text), parse_dates=["TimeStamp"])


def test_a_car_on_the_side_street(look):
    due = ["TimeStamp,DeviceId,EventId,Parameter"]
    for line in SIDE_STREET.splitlines():
        time, events = line.split(" ", 1)
        due += [f"2026-11-27 06:00:{time},1,{event.replace(' ', ',')}" for event in events.split(", ")]
    assert look("events", "--start", START, given=SMALL).splitlines() == due


def greens(path):
    """Returns the greens of a trace that ended, straight from its lines: cabinet, phase, first tick, end."""
    shown, found = {}, []
    for line in path.read_text().splitlines():
        if line.startswith("F "):
            _, cabinet, tick, vehicles, *_ = line.split(" ")
            for phase, letter in enumerate(vehicles, 1):
                before, since = shown.get((cabinet, phase), ("R", 0))
                if letter != before:
                    shown[cabinet, phase] = (letter, int(tick))
                    if before == "G":
                        found.append((int(cabinet), phase, since, int(tick)))
    return sorted(found)


@pytest.mark.parametrize("path", [*VECTORS, STREET])
def test_pandas_reads_the_durations_of_greens(look, path):
    log = logged(look, path)
    assert log.TimeStamp.is_monotonic_increasing
    ticks = (log.TimeStamp - pandas.Timestamp(START)) / pandas.Timedelta("100ms")
    log = log.assign(Tick=ticks.round().astype(int))
    found = []
    for (cabinet, phase), rows in log[log.EventId.isin([1, 7])].groupby(["DeviceId", "Parameter"]):
        assert list(rows.EventId) == [1, 7] * (len(rows) // 2) + [1] * (len(rows) % 2)
        found += zip(
            [cabinet] * len(rows), [phase] * len(rows), rows.Tick[rows.EventId == 1], rows.Tick[rows.EventId == 7]
        )
    assert sorted(found) == greens(path)


@pytest.mark.parametrize("path", VECTORS)
def test_clearances_follow_in_order(look, path):
    log = logged(look, path)
    for _, rows in log[log.EventId.isin([8, 9, 10, 11, 12])].groupby(["DeviceId", "Parameter"]):
        order = [code for code in rows.EventId]
        follows = {8: {9}, 9: {10, 12}, 10: {11}, 11: {12}, 12: {8}}
        assert all(after in follows[before] for before, after in zip(order, order[1:]))


def test_patterns_and_local_zeros(look):
    log = logged(look, STREET)
    fourth = log[log.DeviceId == 4]
    assert list(fourth[fourth.EventId == 131].Parameter) == [1]
    assert list(fourth[fourth.EventId.isin([132, 133])].Parameter) == [90, 60]
    assert list(fourth[fourth.EventId.between(134, 149)].Parameter) == [15, 30] * 4
    assert list(fourth[fourth.EventId == 150].Parameter) == [6] + [5, 4] * 6 + [5, 1] * 4


def test_preempts_and_priority(look):
    log = logged(look, VECTORS[1])
    found = log[log.EventId.between(101, 111) & (log.TimeStamp < "2026-11-27 06:01:50")]
    rows = [
        (str(time)[14:21], code, number) for time, code, number in zip(found.TimeStamp, found.EventId, found.Parameter)
    ]
    entries = [row for row in rows if row[1] in (105, 106, 107, 111)]
    assert entries == [
        ("01:24.1", 105, 8), ("01:30.1", 105, 2), ("01:30.8", 106, 2), ("01:31.8", 107, 2), ("01:48.1", 111, 2)
    ]
    log = logged(look, VECTORS[2])
    assert list(log[(log.DeviceId == 1) & log.EventId.isin([112, 115])].EventId).count(112) == 3
