"""Runs and checks: what a run gives, what a refusal says, and what is left of a program that dies or isn't there."""

import json
import pathlib
import pickle
import time

import arterial
import pytest

from .conftest import ONE, TOP

CAR = {
    "version": 1, "rounds": 7, "ticks": 60, "cabinets": [{}],
    "inputs": [{"round": 2, "cabinet": 1, "veh": 4, "on": True}, {"round": 5, "cabinet": 1, "veh": 4, "on": False}],
}  # fmt: skip
"""The first example of docs/SCENARIO.md."""


def shown(trace):
    """Returns the times in ticks and the colours of the first eight phases."""
    return [(round(10 * it.time_s), it.vehicles[:8]) for it in trace.frames().itertuples()]


def test_a_run_gives_the_frames_of_the_first_example_of_the_scenario_page():
    """docs/SCENARIO.md, "A car on the side street"."""
    assert shown(arterial.run(CAR)) == [
        (0, "RRRRRRRR"), (60, "RGRRRGRR"), (160, "RYRRRYRR"), (200, "RCRRRCRR"), (215, "RRRGRRRG"),
        (315, "RRRYRRRY"), (355, "RRRCRRRC"), (370, "RGRRRGRR"),
    ]  # fmt: skip


def test_a_scenario_may_be_a_dict_text_octets_a_file_a_sheet_or_data_classes(tmp_path):
    path = tmp_path / "one.json"
    path.write_text(json.dumps(ONE))
    text = arterial.run(ONE).text
    for given in (json.dumps(ONE), json.dumps(ONE).encode(), path, str(path), arterial.Scenario.of(ONE)):
        assert arterial.run(given).text == text
    sheet = TOP / "scenarios/sheets/main-street.toml"
    assert arterial.run(sheet).text == arterial.Plan.read(sheet).run().text


def test_workers_bring_items_in_another_order_that_check_takes(program):
    trace = arterial.run(TOP / "scenarios/street.json", workers=2)
    assert arterial.check(trace)


REFUSALS = [
    (ONE | {"rounds": 86_401}, "scenario: limit rounds", "rounds", None, None),
    (ONE | {"ticks": 1.0}, "scenario: field ticks", "ticks", None, None),
    (ONE | {"speed": 45}, "scenario: field speed", "speed", None, None),
    (ONE | {"cabinets": [{"cells": [["phase", 4, 8, 29]]}]}, "scenario: cabinet 1 breaks rule 10 at row 4",
     None, 10, 4),
    ("{", "scenario: not JSON", None, None, None),
]  # fmt: skip
"""docs/SCENARIO.md, "What is refused, and how"."""


@pytest.mark.parametrize(("given", "line", "path", "rule", "row"), REFUSALS)
def test_a_refusal_has_the_programs_line_and_says_what_was_expected(given, line, path, rule, row):
    with pytest.raises(arterial.Refused) as fault:
        arterial.run(given)
    found = fault.value
    assert (found.line, found.path, found.rule, found.row) == (line, path, rule, row)
    assert found.words and all(found.words) and str(found).startswith(line)


@pytest.mark.parametrize("given", [5, None, 1.5, object(), {1, 2}, {"a": {1}}, {"a": float("nan")}, [ONE]])
def test_a_scenario_of_a_wrong_type_is_refused_in_words(given):
    with pytest.raises(arterial.Refused) as fault:
        arterial.run(given)
    assert fault.value.words and fault.value.__cause__ is None


def test_a_scenario_that_contains_itself_is_refused():
    value = dict(ONE)
    value["cabinets"] = [value]
    with pytest.raises(arterial.Refused):
        arterial.run(value)


@pytest.mark.parametrize("given", ["/nowhere/scenario.json", pathlib.Path("/"), "/nowhere/sheet.toml", "a\0b"])
def test_a_file_that_cant_be_read_is_named(given):
    with pytest.raises(arterial.Error) as fault:
        arterial.run(given)
    assert fault.value.__cause__ is None and len(str(fault.value)) < 200


@pytest.mark.parametrize("workers", [-1, 9, 1.0, True, "2"])
def test_workers_out_of_range_are_refused(workers):
    with pytest.raises(arterial.Refused, match="workers"):
        arterial.run(ONE, workers=workers)


def test_a_program_that_isnt_there_is_named(monkeypatch):
    monkeypatch.setenv("ARTERIAL_PROGRAM", "/nowhere/arterial")
    for does in (lambda: arterial.run(ONE), lambda: arterial.check("S "), lambda: arterial.live(ONE), arterial.program):
        with pytest.raises(arterial.NoProgram, match="no program at /nowhere/arterial"):
            does()


@pytest.mark.parametrize(("end", "words", "status"), [
    ("echo 'out of memory' >&2; exit 6", "out of memory", 6),
    ("kill -9 $$", "the program was ended by signal 9", -9),
    ("exit 3", "the program ended with status 3", 3),
])  # fmt: skip
def test_a_program_that_dies_is_an_exception_with_its_line(script, end, words, status):
    script(end)
    for does in (lambda: arterial.run(ONE), lambda: arterial.check("S ")):
        with pytest.raises(arterial.ProgramDied) as fault:
            does()
        assert (str(fault.value), fault.value.program_status) == (words, status)


def test_a_program_that_takes_too_long_is_ended_with_all_it_started(script):
    script("sleep 60 & wait")
    begun = time.monotonic()
    for does in (lambda: arterial.run(ONE, seconds=0.3), lambda: arterial.check("S ", seconds=0.3)):
        with pytest.raises(arterial.Late):
            does()
    assert time.monotonic() - begun < 20


def test_a_program_that_writes_no_trace_is_refused(script):
    script("echo hello")
    with pytest.raises(arterial.NotATrace):
        arterial.run(ONE)


def test_a_changed_trace_is_told_with_line_and_rule():
    """A phase 1 that is green with the first one: line 5 is the first frame after the start (docs/TRACE.md)."""
    trace = arterial.run({"version": 1, "rounds": 1, "ticks": 60, "cabinets": [{"base": "max8"}]})
    assert arterial.check(trace.text) and arterial.check(trace.text.decode())
    verdict = arterial.check(trace.text.replace(b"F 1 60 RG", b"F 1 60 GG"))
    assert not verdict and (verdict.line, verdict.rule) == (5, 6) and "F line" in verdict.words
    assert arterial.check(trace.text[:-4]).rule in (2, 10)


def test_what_is_to_be_checked_has_to_be_text():
    with pytest.raises(arterial.Refused, match="found int"):
        arterial.check(5)
    with pytest.raises(arterial.Error, match="/nowhere"):
        arterial.check("/nowhere")


def test_a_trace_is_judged_by_what_it_shows(monkeypatch):
    """Phases 1 and 2 of one ring are in conflict: at tick 60 the first of them is green in the changed trace, too."""
    trace = arterial.run({"version": 1, "rounds": 1, "ticks": 60, "cabinets": [{"base": "max8"}]})
    kept, wrong = arterial.judge(trace), arterial.judge(trace.text.replace(b"F 1 60 RG", b"F 1 60 GG"))
    assert kept and kept.broken == ()
    assert not wrong and wrong.broken[0].startswith("apart: cabinet 1, tick 60: ")
    assert arterial.judge("S {}\n").broken[0].startswith("no trace: ")
    monkeypatch.setattr("arterial.judging.has_model", lambda: False)
    with pytest.raises(arterial.Missing, match="independent model"):
        arterial.judge(trace)


def test_exceptions_go_from_process_to_process():
    for fault in (
        arterial.Refused("scenario: limit rounds", ("words",)), arterial.ProgramDied("gone", 6),
        arterial.NotATrace("no trace", 3), arterial.Over("over"),
    ):  # fmt: skip
        again = pickle.loads(pickle.dumps(fault))
        assert (type(again), str(again), again.__dict__) == (type(fault), str(fault), fault.__dict__)


def test_a_program_that_no_proof_names_is_said_to_be_unproved(script):
    found = arterial.program(script("exit 0"))
    assert not found.is_proved and "no record of a proof names it" in str(found)


def test_a_program_is_proved_if_a_record_names_its_checksum(script, tmp_path, monkeypatch):
    """Any file will do: what counts is the checksum that the record begins with."""
    import hashlib

    from arterial import programs

    path, record = script("exit 0"), tmp_path / "sums"
    record.write_text(f"{hashlib.sha256(path.read_bytes()).hexdigest()}  crates/arterial/out/arterial\n")
    monkeypatch.setattr(programs, "records", lambda: [tmp_path / "none", record])
    assert arterial.program(path).is_proved
    path.write_text("#!/bin/sh\nexit 1\n")
    assert not arterial.program(path).is_proved
