"""Tidy tables of a run, and the measures of studies of a trace that is given."""

import csv
import io
import json
import pathlib
import subprocess

import pytest

from streettools.cosim import records
from streettools.cosim.records import Kind, Movement, Passage, QueueSample, Study, Trip

from .conftest import PROGRAM, TEE, tools

SCENARIO = {"version": 1, "rounds": 120, "ticks": 10, "cabinets": [{}]}


@pytest.fixture
def folder(tmp_path: pathlib.Path) -> pathlib.Path:
    """Returns the folder of a run with a car that passed one stop line and waits at the next, and a person."""
    (tmp_path / "session.trace").write_bytes(traced(SCENARIO))
    first = Passage(1, "EBT", 2, 10.0, 14.5, 4.5, True, False)
    walked = Passage(1, "ped 4", 4, 20.0, 25.0, 5.0, True, False)
    car = Trip("a", "EBT 1-2", Kind.CAR, (first,), 0.0, None, 30.0, 1, (1, "WBT", 40.0))
    person = Trip("p", "ped 4 1", Kind.PERSON, (walked,), 20.0, 25.0, 5.0, 1)
    movements = [Movement(1, "EBT", 2), Movement(1, "WBT", 6), Movement(1, "ped 4", 4)]
    trace = tmp_path / "session.trace"
    study = Study(1, movements, trace, [car, person], [QueueSample(1, "EBT", 10.0, 1)], 120.0)
    records.save(study, tmp_path / "study.json")
    return tmp_path


def traced(scenario: dict) -> bytes:
    """Returns the trace of a scenario."""
    text = json.dumps(scenario).encode()
    return subprocess.run([PROGRAM, "run"], input=text, capture_output=True, check=True).stdout


def written(*words: object, capsys) -> list[dict[str, str]]:
    """Returns the rows of a table that a command writes to standard output."""
    assert tools.run([*map(str, words)]) == 0
    return list(csv.DictReader(io.StringIO(capsys.readouterr().out)))


def test_a_table_of_trips_has_a_row_for_each(folder, capsys):
    car, person = written("cosim", "table", "trips", folder, capsys=capsys)
    assert car == {
        "vehicle": "a", "route": "EBT 1-2", "kind": "car", "depart": "0.0", "arrive": "", "delay": "30.0", "stops": "1",
        "passages": "1",
    }  # fmt: skip
    assert (person["kind"], person["arrive"]) == ("person", "25.0")


def test_a_table_of_passages_also_has_the_line_at_which_a_vehicle_waits(folder, capsys):
    first, waits, walk = written("cosim", "table", "passages", folder, capsys=capsys)
    assert (first["cabinet"], first["movement"], first["phase"], first["delay"], first["stopped"]) == (
        "1", "EBT", "2", "4.5", "1",
    )  # fmt: skip
    assert (waits["movement"], waits["phase"], waits["place"], waits["arrived"]) == ("WBT", "6", "2", "40.0")
    assert waits["passed"] == waits["delay"] == ""
    assert walk["movement"] == "ped 4"


def test_a_table_is_written_to_a_file_and_an_earlier_one_is_named(folder, capsys):
    out = folder / "queues.csv"
    assert tools.run(["cosim", "table", "queues", str(folder), "-o", str(out)]) == 0
    assert out.read_text() == "cabinet,movement,second,vehicles\n1,EBT,10.0,1\n" and not capsys.readouterr().err
    assert tools.run(["cosim", "table", "queues", str(folder), "-o", str(out)]) == 0
    assert capsys.readouterr().err == f"cosim: {out} already exists and is replaced\n"


@pytest.mark.parametrize(
    ("name", "text", "line"),
    [(None, "", "No such file"), ("study.json", "[]", "not what a run"), ("study.json", "{", "not what a run")],
)
def test_a_folder_without_a_run_is_one_line(tmp_path, name, text, line, capsys):
    if name:
        (tmp_path / name).write_text(text)
    assert tools.run(["cosim", "table", "trips", str(tmp_path)]) in (1, 2)
    said = capsys.readouterr().err
    assert said.count("\n") == 1 and line in said


def test_a_trace_is_measured_by_the_measures_of_studies(folder, capsys):
    """Two minutes of one cabinet in free operation: phases 2 and 6 rest in green after start-up, so each has one."""
    words = ["services phase 2", "services phase 4", "vehicles phase 2", "delay_mean"]
    (row,) = written("sweep", "measure", folder, *words, "--program", PROGRAM, capsys=capsys)
    assert row == {"services_p2": "1", "services_p4": "0", "vehicles_p2": "1", "delay_mean": "4.5"}
    trace = folder / "session.trace"
    more = ("--from", 60, "--program", PROGRAM)
    (row,) = written("sweep", "measure", trace, "green_share phase 2", *more, capsys=capsys)
    assert row == {"green_share_p2": "1.0"}


@pytest.mark.parametrize(
    ("words", "line"),
    [
        (["service"], "did you mean services?"),
        (["band_seen_outbound"], "needs --travel"),
        (["services", "--from", "120"], "the run ends at 120 s"),
        (["band_seen_outbound", "--travel", "x"], "as in 20,20,20"),
    ],
)
def test_what_cant_be_measured_is_one_line(folder, words, line, capsys):
    assert tools.run(["sweep", "measure", str(folder), *words, "--program", str(PROGRAM)]) == 2
    said = capsys.readouterr().err
    assert said.count("\n") == 1 and line in said, said


def test_a_text_that_is_no_trace_is_refused_by_the_program(tmp_path, capsys):
    (tmp_path / "x.trace").write_text("S {}\nF 1 0\n")
    assert tools.run(["sweep", "measure", str(tmp_path / "x.trace"), "services", "--program", str(PROGRAM)]) == 2
    assert capsys.readouterr().err.count("\n") == 1


def test_a_map_over_an_earlier_one_says_so(tmp_path, capsys):
    out = tmp_path / "map.toml"
    out.write_text("")
    assert tools.run(["cosim", "map", str(TEE / "tee.net.xml"), "-o", str(out)]) == 0
    assert capsys.readouterr().err == f"cosim: {out} already exists and is replaced\n"
