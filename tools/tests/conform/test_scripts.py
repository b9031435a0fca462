"""Test scripts: the words of steps and cells, what is refused of a file and where, scenarios as tests."""

import json

import pytest
from hypothesis import given, settings, strategies as some
from streettools.conform import needs, scripts, steps
from streettools.conform.cell_words import cells_of
from streettools.shared.fault import Fault
from streettools.shared.given import Wrong
from streettools.shared.tables import Tables

from .conftest import conform

LOADS = '[test.loads]\na = ["phase 4 min_green 7"]\n'
ONE = '[[test]]\nname = "one"\n'


def acts(line):
    """Returns the acts of a step, short."""
    return [(it.kind, it.at, it.number, it.on) for it in steps.acts_of(line)]


@pytest.mark.parametrize(
    "line, due",
    [
        ("call 4 at 10 s", [("veh", 100, 4, True), ("veh", 105, 4, False)]),
        ("call 4 for 2.5 s at 0.1 s", [("veh", 1, 4, True), ("veh", 26, 4, False)]),
        ("hold preempt 1 for 30 s at 20 s", [("preempt", 200, 1, True), ("preempt", 500, 1, False)]),
        ("push 8 at 3 s", [("ped", 30, 8, True)]),
        ("pattern 2 at 5 s", [("pattern", 50, 2, True)]),
        ("free at 5 s", [("pattern", 50, 254, True)]),
        ("flash at 5 s", [("pattern", 50, 255, True)]),
        ("clock 07:30:00 at 0 s", [("clock", 0, 27_000, True)]),
        ("load it at 10 s", [("stage", 100, 0, True), ("verify", 105, 0, True), ("force", 110, 0, True)]),
        ("put in force at 9 s", [("force", 90, 0, True)]),
    ],
)
def test_a_step_in_words_is_its_acts(line, due):
    assert acts(line) == due


def test_a_priority_request_has_the_octets_of_its_object():
    (act,) = steps.acts_of("priority 1 for phase 2 class 3 level 4 from 5 s to 26 s at 30 s")
    assert act.request.hex() == "010304020032" + "0104"


@pytest.mark.parametrize(
    "line", ["", "call", "call 4", "call 17 at 3 s", "call 0 at 3 s", "call 4 at 3", "call 4 at 10000 s",
             "call 4 at -1 s", "preempt 9 at 1 s", "pattern 49 at 1 s", "clock 25:00:00 at 0 s",
             "clock 7:00:00.5 at 0 s", "wait 3 s",
             "call 4 for 0 s at 1 s", "priority 1 for phase 2 class 1 level 1 from 9 s to 5 s at 1 s", "load at 3 s"],
)  # fmt: skip
def test_what_is_not_a_step_is_refused(line):
    with pytest.raises(Wrong):
        steps.acts_of(line)


@settings(max_examples=200, deadline=None)
@given(some.text(max_size=60))
def test_any_text_is_a_step_or_is_refused(line):
    try:
        assert steps.acts_of(line)
    except Wrong:
        pass


@pytest.mark.parametrize(
    "line, due",
    [
        ("phase 4 min_green 10", ["phase", 4, 4, 10]),
        ("phase 4 yellow 3.5", ["phase", 4, 8, 35]),
        ("phase 2 startup green with walk", ["phase", 2, 20, 3]),
        ("phase 8 dual_entry false", ["phase", 8, 21, 1]),
        ("phase 4 recall pedestrian", ["phase", 4, 21, 1281]),
        ("coordination correction add only", ["unit", 1, 4]),
        ("coordination skip_limit 5", ["unit", 4, 50]),
        ("pattern 2 cycle 100", ["pattern", 2, 2, 100]),
        ("split 1 phase 4 time 20", ["split", 1, 4, 3, 20]),
        ("split 1 phase 2 coordinated true", ["split", 1, 2, 5, 1]),
        ("sequence 2 ring 1 2,1,3,4", ["sequence", 2, 1, "02010304"]),
        ("preempt 1 dwell 2,5", ["preempt", 1, 13, "0205"]),
    ],
)
def test_a_cell_in_words_is_the_cell_of_a_scenario(line, due):
    assert cells_of((line,), Tables()) == [due]


@pytest.mark.parametrize(
    "line", ["", "phase", "phase 17 min_green 5", "phase 4 min_green", "phase 4 min_green much",
             "phase 4 min_green 256", "phase 4 colour red", "split 1 time 3", "sequence 1 ring 3 1,2",
             "coordination nothing 3", "preempt 1 dwell a",
             "phase 4 recall often", "unit 1 3", "phase 4 min_green nan"],
)  # fmt: skip
def test_what_is_not_a_cell_is_refused(line):
    with pytest.raises(Wrong):
        cells_of((line,), Tables())


@pytest.mark.parametrize(
    "text, words",
    [
        ("", "it has no [[test]]"),
        ("x", "not valid TOML"),
        ("[[test]]\n", "test[0].name is missing"),
        (ONE + 'steps = ["jump"]', "test[0].steps[0] 'jump' is not a step"),
        (ONE + 'stepz = ["call 4 at 1 s"]', "did you mean steps?"),
        (ONE + 'tables = ["phase 4 nothing 1"]', "test[0].tables[0] nothing is not known of a phase"),
        (ONE + 'steps = ["load it at 3 s"]', "has no it, which 'load it at 3 s (stage)' asks for"),
        (ONE + 'start = "pattern 1"', "test[0].clock is missing: a test with a pattern says what time it is"),
        (ONE + 'start = "call 4"', "is not a command"),
        (ONE + "lasts = 0", "test[0].lasts is 0, and has to be 1 to 7200"),
        (ONE + 'steps = ["stage a at 1 s", "verify at 2 s", "discard at 3 s"]\n' + LOADS,
         "NORMAL puts verified tables in force"),
        (ONE + ONE, "two tests have the name one"),
    ],
)  # fmt: skip
def test_a_wrong_script_is_refused_with_its_place(tmp_path, text, words):
    path = tmp_path / "own.toml"
    path.write_text(text)
    with pytest.raises(Fault) as refused:
        scripts.all_of([str(path)])
    assert words in str(refused.value)


@settings(max_examples=150, deadline=None)
@given(some.data())
def test_a_damaged_file_of_tests_is_read_or_refused(data):
    files = sorted(scripts.LIBRARY.glob("*.toml"))
    octets = bytearray(data.draw(some.sampled_from(files)).read_bytes())
    for _ in range(data.draw(some.integers(1, 4))):
        at = data.draw(some.integers(0, len(octets) - 1))
        octets[at : at + data.draw(some.integers(0, 3))] = data.draw(some.binary(max_size=4))
    try:
        assert scripts.of_toml(bytes(octets), "damaged.toml")
    except Fault as refused:
        assert str(refused).startswith("damaged.toml: ")


def test_a_scenario_is_a_test_of_its_first_cabinet(tmp_path):
    path = tmp_path / "mine.json"
    inputs = [
        {"round": 3, "cabinet": 1, "veh": 4, "on": True}, {"round": 4, "cabinet": 1, "veh": 4, "on": False},
        {"round": 5, "cabinet": 1, "ped": 2}, {"round": 5, "cabinet": 2, "ped": 4},
    ]  # fmt: skip
    cabinet = {"cells": [["phase", 4, 4, 9]], "pattern": 1, "clock": 252_000}
    text = {"version": 1, "rounds": 20, "ticks": 10, "cabinets": [cabinet, {}], "inputs": inputs}
    path.write_text(json.dumps(text))
    (test,) = scripts.all_of([str(path)])
    assert [(it.kind, it.at, it.number, it.on) for it in test.acts] == [
        ("veh", 20, 4, True), ("veh", 30, 4, False), ("ped", 40, 2, True),
    ]  # fmt: skip
    assert (test.start.number, test.clock.number, test.ticks) == (1, 25_200, 200)
    assert test.cells(Tables()) == [["phase", 4, 4, 9]]


@pytest.mark.parametrize("text", ["{", "[]", '{"version": 1}', "[" * 10_000])
def test_what_is_not_a_scenario_is_refused(tmp_path, text):
    path = tmp_path / "mine.json"
    path.write_text(text)
    with pytest.raises(Fault):
        scripts.all_of([str(path)])


def test_what_a_device_lacks_is_said(tmp_path):
    path = tmp_path / "own.toml"
    steps_of = '["call 9 at 1 s", "push 1 at 1 s", "preempt 3 at 1 s", "pattern 7 at 2 s"]'
    path.write_text(f'{ONE}clock = "07:00:00"\nsteps = {steps_of}')
    (test,) = scripts.all_of([str(path)])
    assert list(dict.fromkeys(needs.lacking(test, Tables(), 16))) == [
        "phase 9 isn't enabled", "phase 1 has no walk", "preempt 3 has no dwell phases", "pattern 7 isn't defined",
    ]  # fmt: skip


def test_the_list_has_a_line_for_each_test_of_the_library():
    done = conform("--list")
    assert done.returncode == 0 and done.stdout.count("\n") == 40


def test_a_test_that_is_not_there_is_one_line():
    done = conform("127.0.0.1:1", "--only", "nothing")
    words = "conform: nothing is neither a test nor a subject: --list prints both\n"
    assert (done.returncode, done.stderr) == (2, words)
