"""CSV as agencies export it: with a header or without, several forms of time, several devices, compressed; and what a
reader finds in it."""

import gzip
import sys
import types

import pandas
import pytest
from streettools.log import layout, times

from .conftest import TOP

SHEET = TOP / "scenarios/two-cabinets.json"
ROWS = [("07:00:00.0", 1, 1, 2), ("07:00:00.0", 1, 1, 6), ("07:00:30.5", 1, 7, 2), ("07:00:30.5", 1, 8, 2)]
ROWS += [("07:00:34.5", 1, 9, 2), ("07:00:34.5", 1, 10, 2), ("07:00:36.0", 1, 11, 2), ("07:00:36.0", 1, 12, 2)]
ROWS += [("07:00:01.0", 2, 1, 4), ("07:00:31.0", 2, 7, 4), ("07:00:31.0", 2, 8, 4)]
WRITES = {
    "iso": lambda time: f"2026-11-27 {time}",
    "iso with T and zone": lambda time: f"2026-11-27T{time}00Z",
    "month first": lambda time: f"11/27/2026 {time}",
    "month first, AM": lambda time: f"11/27/2026 {int(time[:2])}{time[2:]} AM",
    "day first, dots": lambda time: f"27.11.2026 {time}",
    "seconds since 1970": lambda time: f"{1795762800 + 60 * int(time[3:5]) + float(time[6:]):.1f}",
}
HEADERS = [
    ("TimeStamp,DeviceId,EventId,Parameter", "{time},{device},{code},{parameter}"),
    ("SignalID,Timestamp,EventCode,EventParam", "{device},{time},{code},{parameter}"),
    ("locationIdentifier;timestamp;eventCode;eventParam", "{device};{time};{code};{parameter}"),
    ("Event Code\tEvent Param\tDate-Time\tSignal ID", "{code}\t{parameter}\t{time}\t{device}"),
    (None, "{time},{device},{code},{parameter}"),
    (None, "{device},{time},{code},{parameter}"),
    ("# an export\n// of two controllers", "{time}, {device}, {code}, {parameter}"),
    ("TimeStamp,DeviceId,EventId,Parameter", '"{time}","000{device}","{code}","{parameter}"'),
]


def text_of(write, header, form):
    """Returns a log as it is written."""
    rows = [form.format(time=write(time), device=device, code=code, parameter=it) for time, device, code, it in ROWS]
    return "".join(f"{line}\n" for line in ([header] if header else []) + rows)


@pytest.fixture
def lines(log, tmp_path):
    """Returns the F lines of a log, with the words on standard error."""

    def done(content, *words, name="log.csv"):
        path = tmp_path / name
        path.write_bytes(content if isinstance(content, bytes) else content.encode())
        said = log("read", path, "--sheet", SHEET, "-o", tmp_path / "out", *words).err
        return (tmp_path / "out").read_text().splitlines()[1:], said

    return done


def due():
    """Returns the F lines, by hand."""
    dark, free = "DDDDDDDDDDDDDDDD", "F 0 0 0"
    one = [
        (251999, "RRRRRRRR"), (252000, "RGRRRGRR"), (252305, "RYRRRGRR"), (252345, "RCRRRGRR"), (252360, "RRRRRGRR")
    ]  # fmt: skip
    two = [(252009, "RRRRRRRR"), (252010, "RRRGRRRR"), (252310, "RRRYRRRR")]
    return [f"F {cab} {tick} {it}RRRRRRRR {dark} {free}" for cab, rows in ((1, one), (2, two)) for tick, it in rows]


@pytest.mark.parametrize("write", WRITES.values(), ids=WRITES)
@pytest.mark.parametrize(("header", "form"), HEADERS)
def test_each_form_is_read_as_the_same_lines(lines, write, header, form):
    assert lines(text_of(write, header, form))[0] == due()


def test_a_compressed_log_is_read(lines):
    text = text_of(WRITES["iso"], *HEADERS[0]).encode()
    assert lines(gzip.compress(text), name="log.csv.gz")[0] == due()


def test_carriage_returns_and_a_byte_order_mark_are_accepted(lines):
    text = "\ufeff" + text_of(WRITES["iso"], *HEADERS[0]).replace("\n", "\r\n")
    assert lines(text)[0] == due()


def test_a_log_without_devices_is_that_of_the_only_cabinet(log, tmp_path):
    path = tmp_path / "one.csv"
    path.write_text("".join(f"2026-11-27 {time},{code},{it}\n" for time, device, code, it in ROWS if device == 1))
    log("read", path, "--sheet", TOP / "scenarios/one-cabinet.json", "-o", tmp_path / "out")
    assert (tmp_path / "out").read_text().splitlines()[1:] == due()[:5]


def test_columns_can_be_named(lines):
    text = text_of(WRITES["iso"], None, "x,{parameter},{code},y,{time},{device}")
    assert lines(text, "--columns=-,parameter,code,-,time,device")[0] == due()


def test_devices_can_be_named(lines):
    text = text_of(WRITES["iso"], None, "{time},d{device},{code},{parameter}").replace(",d2,", ",1024,")
    assert lines(text, "--device", "d1=1", "--device", "1024=2")[0] == due()


def test_a_device_that_the_plan_has_not_is_reported(lines):
    found, said = lines(text_of(WRITES["iso"], *HEADERS[0]) + "2026-11-27 07:00:01,99,1,2\n")
    assert found == due() and "log: rows of devices that the plan doesn't have: 1 (the first: device '99')" in said


def test_no_device_that_fits_is_refused(log, tmp_path):
    path = tmp_path / "log.csv"
    path.write_text("2026-11-27 07:00:01,99,1,2\n")
    assert "its devices are '99'" in log("read", path, "--sheet", SHEET, "-o", tmp_path / "out", status=2).err


def test_days_that_could_be_months_are_reported(lines):
    text = text_of(lambda time: f"11/12/2026 {time}", *HEADERS[0])
    assert "month/day is taken (--day-first for the other)" in lines(text)[1]
    assert "month/day is taken" not in lines(text, "--day-first")[1]


def test_rows_that_cannot_be_read_are_counted_with_the_first_line(lines):
    text = text_of(WRITES["iso"], *HEADERS[0]).splitlines()
    text[3:3] = ["nonsense", "2026-11-27 25:00:00,1,1,2", "2026-11-27 07:00:00,1,x,2", "2026-11-27 07:00:00,1,1"]
    found, said = lines("\n".join(text))
    assert found == due() and "log: rows that can't be read: 4 (the first: line 4 of log.csv)" in said


@pytest.mark.parametrize(
    ("row", "words"),
    [
        ("2026-11-27 07:00:40,1,777,2", "cabinet 1: rows with codes that are unknown: 1 (the first: code 777)"),
        ("2026-11-27 07:00:40,1,1,0", "cabinet 1: rows with a parameter that the code can't have: 1"),
        ("2026-11-27 07:00:40,1,8,17", "(the first: code 8, parameter 17)"),
        ("2026-11-27 07:00:40.44,1,43,2", "times that are finer than a tenth of a second, rounded: 1"),
        ("2026-11-27 07:00:00.0,1,1,2", "cabinet 1: duplicate rows, dropped: 1 (the first: 07:00:00.0)"),
    ],
)
def test_what_is_found_is_reported_by_kind(lines, row, words):
    found, said = lines(text_of(WRITES["iso"], *HEADERS[0]) + row + "\n")
    assert found == due() and words in said


def test_known_codes_that_nothing_uses_are_not_reported(lines):
    found, said = lines(text_of(WRITES["iso"], *HEADERS[0]) + "2026-11-27 07:00:40.0,1,43,2\n")
    assert found == due() and "unknown" not in said


def test_times_in_whole_seconds_are_reported(lines):
    text = text_of(lambda time: f"2026-11-27 {time[:8]}", *HEADERS[0])
    assert "all times are whole seconds" in lines(text)[1]


@pytest.mark.parametrize(
    ("content", "words"),
    [
        (b"", "it is empty"),
        (b"\n\n", "it has no rows"),
        (b"a,b,c\n1,2,3\n", "no row with a time, a code and a parameter"),
        (b"\x00\x01\x02" * 100, "it is not a text"),
        (b"\x1f\x8b\x08nonsense", "it can't be decompressed"),
        (b"TimeStamp,DeviceId,EventId,Parameter\n", "no row with a time"),
        (b"PAR1" + b"\0" * 40, "arquet"),
    ],
)
def test_what_is_no_log_is_refused_in_a_line(log, tmp_path, content, words):
    path = tmp_path / "log.csv"
    path.write_bytes(content)
    said = log("read", path, "--sheet", SHEET, "-o", tmp_path / "out", status=2).err
    assert words in said and said.count("\n") == 1 and not (tmp_path / "out").exists()


@pytest.mark.parametrize(
    ("text", "ticks"),
    [
        ("2026-11-27 00:00:00.04", 0), ("2026-11-27 00:00:00.05", 1), ("2026-11-27 00:00:00.95", 10),
        ("2026-11-27 23:59:59.99", 864_000),
    ],
)  # fmt: skip
def test_a_time_is_rounded_to_the_nearest_tenth(text, ticks):
    day = times.day_of(2026, 11, 27)
    assert times.moment(text, times.Style("iso")).ticks - day == ticks


def test_noon_and_midnight_with_halves_of_the_day():
    style, day = times.Style("slashed"), times.day_of(2026, 11, 27)
    assert times.moment("11/27/2026 12:00:00 AM", style).ticks == day
    assert times.moment("11/27/2026 12:00:00 PM", style).ticks == day + 432_000
    with pytest.raises(ValueError):
        times.moment("11/27/2026 13:00:00 PM", style)


def test_the_columns_of_a_header_are_named_in_many_ways():
    assert layout.named(["Signal ID", "Time Stamp", "Event_Code", "EventParam"]) == {
        "device": 0, "time": 1, "code": 2, "parameter": 3
    }  # fmt: skip


class Batch:
    """A batch of rows, as pyarrow gives it."""

    def __init__(self, table):
        self.to_pandas = lambda: table


def test_rows_of_parquet_are_read_batch_by_batch(lines, monkeypatch):
    """A substitute for pyarrow, which Debian 12 doesn't have: two batches of a file."""
    rows = [(f"2026-11-27 {time}", device, code, it) for time, device, code, it in ROWS]
    table = pandas.DataFrame(rows, columns=["TimeStamp", "DeviceId", "EventId", "Parameter"])
    table.TimeStamp = pandas.to_datetime(table.TimeStamp)
    file = types.SimpleNamespace(iter_batches=lambda: iter([Batch(table[:5]), Batch(table[5:])]))
    parquet = types.ModuleType("pyarrow.parquet")
    parquet.ParquetFile = lambda path: file
    monkeypatch.setitem(sys.modules, "pyarrow", types.SimpleNamespace(parquet=parquet))
    monkeypatch.setitem(sys.modules, "pyarrow.parquet", parquet)
    assert lines(b"PAR1" + bytes(40), name="log.parquet")[0] == due()
