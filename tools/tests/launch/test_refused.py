"""What follows the program's line if it refuses a scenario: what was expected, and what was found."""

import json
import subprocess
import sys
import time

import pytest

from .conftest import TOP

sys.path.insert(0, str(TOP / "tools"))
from streettools.launch import refused  # noqa: E402

SCENARIO = {"version": 1, "rounds": 10, "ticks": 10, "cabinets": [{}]}


def text(**changes: object) -> bytes:
    """Returns the text of a scenario with other values."""
    return json.dumps({**SCENARIO, **changes}, separators=(",", ":")).encode()


def test_a_wrong_kind_is_explained_with_its_place_and_both_values():
    """The value begins at column 23 of `{"version":1,"rounds":"10"`."""
    assert refused.explained("run", text(rounds="10"), "scenario: field rounds\n") == [
        'line 1, column 23: rounds: expected a whole number from 1 to 86400, found "10"'
    ]


def test_of_a_field_file_the_scenario_inside_is_explained():
    """`{"scenario":{"version":1,"rounds":0`: the value is at column 35."""
    given = b'{"scenario":' + text(rounds=0) + b"}"
    assert refused.explained("respond", given, "scenario: limit scenario.rounds") == [
        "line 1, column 35: rounds: expected 1 to 86400, found 0"
    ]


def test_of_a_session_the_first_line_is_explained():
    given = text(rounds=0) + b"\ntick 10\n"
    assert refused.explained("live", given, "scenario: limit rounds")[0].endswith("expected 1 to 86400, found 0")


def test_a_rule_is_explained_with_what_it_requires_and_the_numbers_of_the_tables():
    """The standard splits of ring 1 are 15 + 30 + 15 + 30 s, and the cycle is now 80 s."""
    given = text(cabinets=[{"cells": [["pattern", 1, 2, 80]]}])
    requires, found, *_ = refused.explained("run", given, "scenario: cabinet 1 breaks rule 17 at row 1")
    assert requires.startswith("rule 17 requires: ") and "15 + 30 + 15 + 30 = 90 s" in found and "80 s" in found


def test_a_text_that_is_not_json_is_explained_with_its_place():
    line = refused.explained("run", b'{"version":1,,', "scenario: not JSON")[0]
    assert line.startswith("line 1, column 14: a name in double quotes was expected")


@pytest.mark.parametrize(
    ("command", "given", "said"),
    [
        ("check", text(), "trace: line 1 breaks rule 1"),
        ("run", text(), "read fault"),
        ("run", text(), "scenario: field rounds"),
        ("run", b"not JSON", "scenario: field rounds"),
        ("run", text(), "scenario: not JSON"),
        ("band", text(), "scenario: field pattern"),
        ("run", b"\xff", "scenario: cabinet 1 breaks rule 1 at row 1"),
    ],
)
def test_nothing_is_added_to_a_line_that_does_not_fit_the_text(command, given, said):
    assert refused.explained(command, given, said) == []


def test_an_explanation_that_takes_too_long_is_left_out(monkeypatch):
    many = text(inputs=[{"round": 1, "cabinet": 1, "ped": 2}] * 40_000 + [{}])
    monkeypatch.setattr(refused, "SECONDS", 0.02)
    begun = time.monotonic()
    assert refused.explained("run", many, "scenario: field inputs[40000].cabinet") == []
    assert time.monotonic() - begun < 10


def test_an_explanation_that_takes_too_much_memory_is_left_out():
    """In a process of its own, which has no memory left over from before."""
    words = "import sys; from streettools.launch import refused; refused.MEMORY = 1 << 20; "
    words += "print(refused.explained('run', sys.stdin.buffer.read(), 'scenario: field inputs[40000].cabinet'))"
    many = text(inputs=[{"round": 1, "cabinet": 1, "ped": 2}] * 40_000 + [{}])
    ran = subprocess.run([sys.executable, "-B", "-c", words], input=many, capture_output=True, cwd=TOP / "tools")
    assert (ran.returncode, ran.stdout) == (0, b"[]\n"), ran.stderr


REFUSES = {"SAYS": "scenario: field rounds", "STATUS": "2"}
"""The answer of the stand-in for the program."""


def test_the_launcher_adds_the_line_for_a_file_and_keeps_the_programs_line_and_status(proved, tmp_path):
    file = tmp_path / "a scenario"
    file.write_bytes(text(rounds="10"))
    added = 'arterial: line 1, column 23: rounds: expected a whole number from 1 to 86400, found "10"\n'
    assert proved.ran("run", str(file), **REFUSES) == (2, "", f"{REFUSES['SAYS']}\n{added}")


def test_of_a_pipe_the_way_to_the_explanation_is_named(proved):
    way = "arterial: with the name of a file, arterial run FILE also shows what was expected and what was found\n"
    assert proved.ran("run", **REFUSES) == (2, "", f"{REFUSES['SAYS']}\n{way}")


def test_a_file_that_is_too_long_is_not_read(proved, tmp_path):
    """16 MiB are the most."""
    file = tmp_path / "long"
    with file.open("wb") as out:
        out.truncate(20_000_000)
    said = proved.ran("run", str(file), SAYS="scenario: limit .", STATUS="2")[2]
    assert said == "scenario: limit .\narterial: expected at most 16777216 bytes, found 20000000\n"


@pytest.mark.parametrize(
    "command", ["run", "check", "overlaps", "live", "judge", "band", "respond", "generate", "survey"]
)
def test_each_command_of_the_program_has_help(proved, command):
    """The stand-in's help has two of them; of the others all of it is shown."""
    for option in ("-h", "--help"):
        status, written, said = proved.ran(command, option)
        assert (status, said) == (0, "") and "arterial run" in written or "arterial check" in written


def test_the_short_help_of_the_launcher_fits_a_terminal(proved):
    status, written, said = proved.ran("-h")
    assert (status, said) == (0, "") and written.startswith("usage: arterial COMMAND ..\n")
    assert written.count("\n") <= 24 and max(map(len, written.splitlines())) <= 100
    assert all(f"  {name} " in written for name in ("run", "live", "survey", "look", "sweep", "prove", "take"))
