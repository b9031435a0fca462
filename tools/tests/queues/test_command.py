"""The command as a whole, with the program or the model: what it writes, that its trace is one, what it refuses."""

import json
import os
import subprocess

import pytest

from .conftest import TOP, program_here

SCENARIO = {"version": 1, "rounds": 120, "ticks": 10, "cabinets": [{"pattern": 1}]}
VOLUMES = """\
title = "One"
[[cabinet]]
number = 1
movements = [
  { name = "EBT", phase = 2, volume = 700, lanes = 2 },
  { name = "WBT", phase = 6, volume = 500, lanes = 2 },
  { name = "NBT", phase = 8, volume = 200 },
  { name = "SBT", phase = 4, volume = 200 },
]
crossings = [{ phase = 4, persons = 120 }]
idle = [1, 3, 5, 7]
"""


@pytest.fixture
def folder(tmp_path):
    """A folder with a scenario and volumes."""
    (tmp_path / "one.json").write_text(json.dumps(SCENARIO))
    (tmp_path / "one.volumes.toml").write_text(VOLUMES)
    return tmp_path


def called(folder, *words, program=None) -> subprocess.CompletedProcess:
    """Calls the command in a folder."""
    given = ["/usr/bin/python3", "-B", TOP / "tools/streettools", "cosim", *words]
    named = os.environ | {"ARTERIAL_PROGRAM": str(program or program_here())}
    return subprocess.run(given, cwd=folder, env=named, capture_output=True, text=True, timeout=600)


def queues(folder, *words, program=None) -> subprocess.CompletedProcess:
    """Calls `cosim queues` with the folder's files."""
    return called(folder, "queues", "one.volumes.toml", "--scenario", "one.json", *words, program=program)


def test_a_run_writes_a_report_a_trace_that_is_one_and_what_pictures_are_drawn_from(folder, program):
    ran = queues(folder, "-o", "out", "--json")
    assert (ran.returncode, ran.stderr) == (0, "")
    value = json.loads(ran.stdout)
    assert value == json.loads((folder / "out/report.json").read_text())
    assert value["seconds"] == 120 and value["title"] == "One"
    assert value["undisturbed"] == value["cabinets"][0]["undisturbed"] == 0  # the offset takes longer than the run
    by_name = {it["movement"]: it for it in value["movements"]}
    assert by_name["EBT"]["vehicles"] > 5 and by_name["SBT"]["vehicles"] > 0
    assert (folder / "out/report.txt").read_text().startswith("One: 120 s; times in seconds\n")
    trace = (folder / "out/session.trace").read_bytes()
    assert subprocess.run([program, "check"], input=trace).returncode == 0
    inputs = json.loads(trace[2 : trace.index(b"\n")])["inputs"]
    assert {it["veh"] for it in inputs if "veh" in it} >= {2, 4, 6, 8} and any("ped" in it for it in inputs)
    for kind in ("purdue", "splits", "queues"):
        drawn = called(folder, "draw", kind, "out", "-o", f"{kind}.svg")
        assert (drawn.returncode, drawn.stderr) == (0, ""), kind
        assert "<svg" in (folder / f"{kind}.svg").read_text()
    assert 'id="EBT-green"' in (folder / "queues.svg").read_text()
    assert 'id="EBT-on-green"' in (folder / "purdue.svg").read_text()
    assert 'id="phase-2-split"' in (folder / "splits.svg").read_text()
    drawn = called(folder, "draw", "paths", "out", "--travel", "20", "-o", "paths.svg")
    assert (drawn.returncode, drawn.stderr) == (2, "cosim: paths need two cabinets or more, none of them twice\n")


def test_the_same_seed_gives_the_same_report_and_another_seed_another(folder):
    one, again, other = queues(folder), queues(folder), queues(folder, "--seed", "2")
    assert one.stdout == again.stdout != other.stdout


@pytest.mark.parametrize(
    ("words", "status", "line"),
    [
        (["--seconds", "60", "--warm", "60"], 2, "cosim: --warm 60 leaves nothing of 60 s to measure"),
        (["--seconds", "5000000"], 2, "cosim: 5e+06 s are more than a scenario with rounds of 10 ticks may have"),
    ],
)
def test_words_that_do_not_fit_are_refused_in_one_line(folder, words, status, line):
    ran = queues(folder, *words)
    assert (ran.returncode, ran.stdout, ran.stderr) == (status, "", line + "\n")


def test_a_scenario_that_the_program_refuses_is_refused_with_its_line(folder):
    scenario = SCENARIO | {"cabinets": [{"pattern": 1, "cells": [["phase", 2, 8, 29]]}]}
    (folder / "one.json").write_text(json.dumps(scenario))
    ran = queues(folder)
    assert (ran.returncode, ran.stdout) == (2, "")
    assert ran.stderr == "cosim: scenario: cabinet 1 breaks rule 10 at row 2\n"


def test_files_that_are_not_there_and_texts_that_are_no_toml_are_told(folder):
    ran = called(folder, "queues", "none.toml", "--scenario", "one.json")
    assert (ran.returncode, ran.stderr) == (1, "cosim: none.toml: No such file or directory\n")
    (folder / "one.volumes.toml").write_text("title = ")
    ran = queues(folder)
    assert ran.returncode == 2 and ran.stderr.startswith("cosim: one.volumes.toml: not valid TOML: ")
    ran = called(folder, "draw", "purdue", "none", "-o", "a.svg")
    assert ran.returncode == 1 and ran.stderr.endswith(": -o of the run writes it\n")


def test_a_program_that_dies_is_told_and_no_process_is_left(folder, tmp_path):
    dies = tmp_path / "dies"
    dies.write_text(
        "#!/bin/sh\nread line\nprintf 'F 1 0 RRRRRRRRRRRRRRRR DDDDDDDDDDDDDDDD S 0 0 0\\nR 1\\n.\\n'\nexit 6\n"
    )
    dies.chmod(0o755)
    ran = queues(folder, program=dies)
    assert (ran.returncode, ran.stderr) == (1, "cosim: the program ended with status 6\n")


def test_without_a_program_it_says_what_makes_one(folder):
    ran = queues(folder, program=folder / "none")
    assert ran.returncode == 125 and "./arterial prove makes one" in ran.stderr


def test_preempts_of_the_scenario_stay_and_its_detectors_only_where_that_is_asked(folder):
    own = [{"round": 30, "cabinet": 1, "veh": 3, "on": True}, {"round": 31, "cabinet": 1, "preempt": 1, "on": True}]
    (folder / "one.json").write_text(json.dumps(SCENARIO | {"inputs": own}))

    def inputs(*words) -> list[dict]:
        ran = queues(folder, "-o", "out", "--seconds", "60", *words)
        assert ran.returncode == 0, ran.stderr
        trace = (folder / "out/session.trace").read_bytes()
        return json.loads(trace[2 : trace.index(b"\n")])["inputs"]

    assert own[1] in inputs() and own[0] not in inputs()
    assert own[0] in inputs("--keep-inputs")
