"""Damaged logs: the reader takes what are rows, counts or refuses the rest, and has no fault of its own."""

import io
import os
import pathlib
import random

import pytest
from hypothesis import HealthCheck, given, settings
from hypothesis import strategies as st

from streettools.log import reading, rows, street
from streettools.log.findings import Findings
from streettools.log.rows import Given, Spool
from streettools.shared.fault import Fault

from .conftest import TOP

CASES = int(os.environ.get("FUZZ_CASES", 2_000))
HEADERS = [
    "TimeStamp,DeviceId,EventId,Parameter", "SignalID;Timestamp;EventCode;EventParam", "", "time\tcode\tparameter",
    "\ufeffTimeStamp,DeviceId,EventId,Parameter", "# remark", "//", "a,b,c,d", "TimeStamp,EventId", ",,,",
]  # fmt: skip
TIMES = [
    "2026-11-27 07:00:00.0", "2026-11-27T07:00:00.1Z", "11/27/2026 7:00:00.2 AM", "27.11.2026 07:00:00", "1795762800.5",
    "2026-02-30 07:00:00", "2026-11-27 24:00:00", "9999-12-31 23:59:59.999999999", "0000-00-00 00:00:00", "07:00", "",
    "1970-01-01 00:00:00", "2200-12-31 23:59:59.9", "4000000000", "2026-11-27 07:00:00.0000000001", "NaN", "1e309",
]  # fmt: skip
WORDS = [
    "", "0", "1", "2", "-1", "16", "17", "99999999999999999999", "1.0", "1.5", "x", '"', '"1"', "\x00", "é", " 1 ",
    "NaN", "1e5", "0x1", "٣",
]  # fmt: skip
CODES = (
    "0 1 7 8 9 10 11 12 21 22 23 81 82 90 102 104 105 106 107 111 112 115 131 132 133 134 150 173 255 777".split()
)
PARAMETERS = "1 2 4 5 6 8 9 255".split()
GOOD = b"".join((TOP / "tools/tests/log/good.csv").read_bytes().splitlines(keepends=True)[:60])


def words(rng, known, share=0.9):
    """Returns a word that is often one of the known ones."""
    return rng.choice(known) if rng.random() < share else rng.choice(WORDS)


def line(rng, delimiter):
    """Returns a line that is often a row."""
    if rng.random() < 0.05:
        return "".join(rng.choice(' ,;"\t\r\'\\x0') for _ in range(rng.randrange(30)))
    second = f"2026-11-27 07:{rng.randrange(60):02d}:{rng.randrange(60):02d}.{rng.randrange(10)}"
    time = second if rng.random() < 0.8 else words(rng, TIMES)
    its = [time, words(rng, ["1", "2", "3", "x"]), words(rng, CODES), words(rng, PARAMETERS)]
    if rng.random() < 0.05:
        rng.shuffle(its)
    return delimiter.join(its[: rng.choice((4, 4, 4, 4, 4, 3, 2, 5))])


def written(seed):
    """Returns the bytes of a log that is made from a seed."""
    rng = random.Random(seed)
    delimiter = rng.choice(",,,;\t|")
    lines = [rng.choice(HEADERS), *(line(rng, delimiter) for _ in range(rng.randrange(40)))]
    return rng.choice(("\n", "\r\n", "\n\n")).join(lines).encode("utf-8", "surrogatepass")


def damaged(seed):
    """Returns a good log with some bytes changed, removed, doubled or inserted."""
    rng, content = random.Random(seed), bytearray(GOOD)
    for _ in range(rng.randrange(1, 8)):
        at = rng.randrange(len(content))
        size = rng.choice((1, 1, 2, 20))
        kind = rng.randrange(4)
        if kind == 0:
            content[at : at + size] = rng.randbytes(size)
        elif kind == 1:
            del content[at : at + size]
        elif kind == 2:
            content[at:at] = content[at : at + size]
        else:
            content[at:at] = rng.choice((b"\n", b'"', b",", b"\0", b"\xff", b"9" * 20, b"-", b"\r"))
    return bytes(content)


@pytest.fixture(scope="module")
def plan():
    """A plan with two cabinets."""
    return street.read(str(TOP / "scenarios/two-cabinets.json"))


def read(content, plan, folder):
    """Reads a log, and makes the lines of all cabinets."""
    for file in folder.iterdir():
        file.unlink()
    spool = Spool(folder, Findings())
    try:
        rows.Reader("log", spool, Given()).read(io.BytesIO(content))
        log = reading.begun(reading.Asked(["log"], plan), spool, spool.findings)
        last = None
        for device, cabinet in log.devices.items():
            for lines in log.lines_of(device):
                ticks = [it.tick for it in lines]
                assert ticks == sorted(set(ticks)) and all(len(it.colours) == len(it.signals) == 16 for it in lines)
                last = cabinet
        assert all("\n" not in it for it in log.sentences())
        return last
    except Fault as fault:
        assert "\n" not in str(fault)
        return None


@settings(max_examples=CASES // 2, derandomize=True, deadline=None, database=None,
          suppress_health_check=[HealthCheck.function_scoped_fixture])  # fmt: skip
@given(seed=st.integers(0, 2**32))
def test_lines_of_all_kinds_make_no_fault(plan, tmp_path_factory, seed):
    read(written(seed), plan, folder_of(tmp_path_factory))


@settings(max_examples=CASES // 2, derandomize=True, deadline=None, database=None,
          suppress_health_check=[HealthCheck.function_scoped_fixture])  # fmt: skip
@given(seed=st.integers(0, 2**32))
def test_a_damaged_log_makes_no_fault(plan, tmp_path_factory, seed):
    read(damaged(seed), plan, folder_of(tmp_path_factory))


FOLDER: list[pathlib.Path] = []


def folder_of(factory):
    """Returns the folder that all cases share."""
    if not FOLDER:
        FOLDER.append(factory.mktemp("spool"))
    return FOLDER[0]


def test_most_cases_are_read(plan, tmp_path):
    """The cases above would show little if most were refused."""
    seeds = range(200)
    assert sum(read(damaged(seed), plan, tmp_path) is not None for seed in seeds) > 150
    assert sum(read(written(seed), plan, tmp_path) is not None for seed in seeds) > 50


@settings(max_examples=60, derandomize=True, deadline=None, database=None,
          suppress_health_check=[HealthCheck.function_scoped_fixture])  # fmt: skip
@given(content=st.binary(max_size=200))
def test_the_command_refuses_bytes_in_a_line(tmp_path_factory, content):
    from streettools import words as tools

    folder = folder_of(tmp_path_factory).parent
    path = folder / "bytes.csv"
    path.write_bytes(content)
    sheet = TOP / "scenarios/two-cabinets.json"
    assert tools.run(["log", "read", str(path), "--sheet", str(sheet), "-o", str(folder / "out")]) in (0, 2)
