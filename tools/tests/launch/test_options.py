"""An option has one meaning in all tools: what each is called, which forms of times are read, what old names do."""

import argparse
import io
import sys

import pytest

from .conftest import TOP

sys.path.insert(0, str(TOP / "tools"))

from streettools import words  # noqa: E402
from streettools.shared.clock import at, of_day, placed, run_ticks  # noqa: E402
from streettools.shared.fault import Fault  # noqa: E402
from streettools.shared.commandline import Parser, add_output, add_renamed  # noqa: E402

TRACE = TOP / "tools/tests/look/traces/mixed.trace"
TOOLS = [[word.name] for word in words.tools()]
PARTS = [
    ["look", "rings"], ["look", "report"], ["plan", "check"], ["plan", "scenario"], ["sweep", "draw"],
    ["cosim", "run"], ["cosim", "map"], ["cosim", "compare"], ["cosim", "queues"], ["cosim", "draw"],
]  # fmt: skip
WRITING = [*(it for it in PARTS if it != ["sweep", "draw"]), ["sweep", "draw", "lines"], ["sweep"]]


def ended(given, capsys):
    """Returns the status with which a tool ends, and its output."""
    try:
        status = words.run(given)
    except SystemExit as end:
        status = end.code
    return status, *capsys.readouterr()


@pytest.mark.parametrize("tool", [*(it for it in TOOLS if it != ["cosim"]), *PARTS], ids=" ".join)
def test_each_command_is_called_arterial_and_says_its_version(tool, capsys):
    status, out, _ = ended([*tool, "--help"], capsys)
    assert status == 0 and out.startswith(f"usage: arterial {' '.join(tool)} ") and "--traceback" in out
    assert ended([*tool, "--version"], capsys)[:2] == (0, "arterial 0.8\n")


@pytest.mark.parametrize("tool", WRITING, ids=" ".join)
def test_what_is_written_is_named_by_output(tool, capsys):
    out = ended([*tool, "--help"], capsys)[1]
    assert "-o " in out and "--output " in out and "--out " not in out


@pytest.mark.parametrize("tool", [["cabinet"], ["street"], ["sweep"], *PARTS[5:6], *PARTS[7:9], ["plan", "check"]])
def test_the_program_is_named_alike(tool, capsys):
    assert "--program FILE" in ended([*tool, "--help"], capsys)[1]


def test_an_old_name_is_taken_with_a_line(capsys):
    reader = Parser("tool")
    add_output(reader, "where to write", required=True)
    add_renamed(reader, "--seconds", "--timeout", type=int, default=600, help="how long")
    assert vars(reader.parse_args(["-o", "x"])) == {"output": "x", "timeout": 600, "traceback": False}
    given = reader.parse_args(["--out", "x", "--seconds", "7"])
    assert (given.output, given.timeout) == ("x", 7)
    assert capsys.readouterr().err == (
        "arterial tool: --out is --output now; --out is not taken any more in the next release\n"
        "arterial tool: --seconds is --timeout now; --seconds is not taken any more in the next release\n"
    )
    with pytest.raises(SystemExit):
        reader.parse_args([])
    assert "-o/--output" in capsys.readouterr().err


def test_a_report_by_the_old_name_is_the_same(tmp_path, capsys):
    for name, option in (("new", "-o"), ("old", "--out")):
        assert words.run(["look", "report", "--no-check", option, str(tmp_path / name), str(TRACE)]) == 0
    assert (tmp_path / "new").read_text() == (tmp_path / "old").read_text()
    assert "--out is --output now" in capsys.readouterr().err


def test_a_hyphen_is_standard_input(monkeypatch, capsys):
    report = ended(["look", "report", "--no-check", str(TRACE)], capsys)
    with TRACE.open("rb") as stream:
        monkeypatch.setattr(sys, "stdin", io.TextIOWrapper(stream))
        assert ended(["look", "report", "--no-check", "-"], capsys) == report


@pytest.mark.parametrize("tool", ["street", "cabinet"])
def test_a_hyphen_is_standard_input_for_a_scenario(tool, monkeypatch, capsys):
    monkeypatch.setenv("ARTERIAL_PROGRAM", str(TOP / "model/program"))
    monkeypatch.setattr(sys, "stdin", io.TextIOWrapper(io.BytesIO(b"nonsense")))
    assert ended([tool, "--scenario", "-"], capsys) == (2, "", f"{tool}: scenario: not JSON\n")


TIMES = [("90", 900), ("90.5", 905), ("0", 0), ("900t", 900), ("1:30", 900), ("1:30.5", 905), ("1:01:30", 36_900)]


@pytest.mark.parametrize(("text", "ticks"), TIMES)
def test_a_time_of_a_run_is_seconds_a_clock_or_ticks(text, ticks):
    assert run_ticks(text) == ticks
    assert placed(at(text), None, 0, 50_000) == ticks


@pytest.mark.parametrize(
    ("text", "start", "clock", "tick"),
    [
        # a run of an hour from 7:00 on whose axis has times of day
        ("07:05", 25_200, 252_000, 3000), ("7:05:00.5", 25_200, 252_000, 3005), ("90", 25_200, 252_000, 900),
        ("900t", 25_200, 252_000, 900), ("08:00", 25_200, 252_000, 36_000),
        # the same, with the time since the start on its axis
        ("1:30", None, 252_000, 900), ("07:05:00", None, 252_000, 3000), ("0:30:00", None, 252_000, 18_000),
        # over midnight
        ("00:01", 86_340, 0, 1200),
    ],
)  # fmt: skip
def test_a_time_with_a_colon_is_what_the_axis_shows(text, start, clock, tick):
    assert placed(at(text), start, clock, 36_000) == tick


@pytest.mark.parametrize(("text", "start"), [("06:59", 25_200), ("1:30", 25_200), ("09:00:00", None)])
def test_a_time_of_day_that_the_run_hasnt_is_refused_with_those_that_it_has(text, start):
    with pytest.raises(Fault, match=f"{text} is not in the run, which is from 07:00:00 to 08:00:00"):
        placed(at(text), start, 252_000, 36_000)


@pytest.mark.parametrize("text", ["", "x", "-1", "90.55", "1:3", "nan", "inf", "1e99", "0.5t", "1:2:3:4", "9" * 5000])
def test_other_texts_are_no_times(text):
    with pytest.raises((ValueError, argparse.ArgumentTypeError)):
        run_ticks(text)


@pytest.mark.parametrize(
    ("text", "seconds"),
    [("7:30", 27_000), ("07:30:00", 27_000), ("07:30:00.5", 27_000.5), ("23:59:59", 86_399), (" 0:00 ", 0)]
    + [(text, None) for text in ("24:00", "7", "7:60", "7:3", "x", "7:30:60", "-1:30", "7:30:00:00")],
)
def test_times_of_day(text, seconds):
    assert of_day(text) == seconds
