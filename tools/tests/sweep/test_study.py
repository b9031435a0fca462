"""Studies that can't be taken: one line each, and a status of its own; what varies, and in which order."""

import json
import resource

import pytest
from streettools.words import run
from streettools.shared.fault import Fault
from streettools.sweep import slurm
from streettools.sweep.journal import Journal
from streettools.sweep.study import study_of
from streettools.sweep.targets import Put
from streettools.sweep.variants import Variants

from .conftest import STUDY

BASE = json.dumps({"version": 1, "rounds": 20, "ticks": 10, "cabinets": [{}, {}]}).encode()


def study(**more):
    """Returns a study with these names, beside a scenario and a measure."""
    return study_of({"scenario": "a", "measures": ["services"]} | more, lambda name: BASE)


def parameter(name, **more):
    """Returns a parameter of a cell."""
    return {"name": name, "cell": ["pattern", 1, 3], "cabinet": 1} | more


BAD = {
    "no such path": (
        'name = "mode"\ncell = ["unit", 1]',
        'name = "mode"\npath = "cabinets[0].speed"',
        "the scenario has no cabinets[0].speed",
    ),
    "no such place": (
        'name = "mode"\ncell = ["unit", 1]',
        'name = "mode"\npath = "cabinets[7].clock"',
        "the scenario has no cabinets[7].clock",
    ),
    "no such cabinet": ("cabinet = 2", "cabinet = 3", "the scenario has no cabinet 3"),
    "no such cell": (
        '["unit", 1]',
        '["speed", 1]',
        "vary[1].cell has to begin with one of phase, sequence, unit, pattern, split, preempt",
    ),
    "a cell with its value": ('["unit", 1]', '["unit", 1, 2]', "the value comes from the study"),
    "no such measure": ('"services"', '"service"', "unknown measure 'service'; did you mean services?"),
    "a name that is unknown": ("seeds = 5", "seed = 5", "seed is unknown; did you mean seeds?"),
    "a measure of the street without one": ("[street]\ntravel = [10]", "", "band_outbound needs the table street"),
    "a rate out of range": (
        "vehicles = 400", "vehicles = 4000", "traffic.flow[0].vehicles is 4000, and has to be 0 to 3600"
    ),
    "seeds without anything drawn": (
        STUDY[STUDY.index("[traffic]") : STUDY.index("[street]")], "", "nothing here is random"
    ),
    "two columns of one name": ('name = "mode"', 'name = "offset"', "two columns of the table would be called offset"),
    "no values": ("values = [2, 3, 4]", "values = []", "vary[1].values has to have 1 to 1,000,000 values"),
    "values in two ways": (
        "values = [2, 3, 4]",
        "values = [2]\nrange = {from = 1, to = 2}",
        "needs one of values, range, random, option, and has several",
    ),
    "a value that no cell takes": (
        "values = [0, 10, 20, 95]",
        "values = [0.5, 10]",
        "offset: 0.5 is not a value of the cell ['pattern', 1, 3], which takes whole numbers from 0 to 255",
    ),
    "a value out of the range of its cell": ("values = [2, 3, 4]", "values = [5]", "mode: 5 is not a value of"),
    "equal seeds": ("seeds = 5", "seeds = [1, 2, 1]", "seeds has 1 twice: equal seeds give equal runs"),
    "a beginning after the end": ("seeds = 5", "seeds = 5\nfrom = 30", "from is 30 s, and the run ends at 20 s"),
    "a phase that is not enabled": ('"services"', '"services phase 12"', "phase 12 is not enabled in any cabinet"),
    "a cabinet that is not there": ('"services"', '"services cabinet 3"', "the scenario has no cabinet 3"),
    "no TOML": ("seeds = 5", "seeds = = 5", "study.toml: not valid TOML"),
}  # fmt: skip


@pytest.mark.parametrize("why", BAD)
def test_a_fault_of_the_study_is_one_line_and_status_2(why, folder, monkeypatch, capsys):
    monkeypatch.chdir(folder)
    before, after, words = BAD[why]
    assert before in STUDY
    (folder / "study.toml").write_text(STUDY.replace(before, after, 1))
    status = run(["sweep", "study.toml", "--count"])
    said = capsys.readouterr().err
    assert (status, said.count("\n"), words in said) == (2, 1, True), said


def test_a_file_that_is_missing_has_status_1(folder, monkeypatch, capsys):
    monkeypatch.chdir(folder)
    (folder / "two.json").unlink()
    assert run(["sweep", "study.toml", "--count"]) == 1
    assert capsys.readouterr().err == "sweep: two.json: No such file or directory\n"
    assert run(["sweep", "none.toml", "--count"]) == 1


def test_a_study_of_which_every_run_is_refused_has_a_status_of_its_own(folder, monkeypatch, capsys):
    """The offset of 95 s is beyond the cycle of 90 s."""
    monkeypatch.chdir(folder)
    text = STUDY.replace("values = [0, 10, 20, 95]", "values = [95]").replace("seeds = 5", "seeds = 1")
    (folder / "study.toml").write_text(text)
    assert run(["sweep", "study.toml", "-o", "out.csv", "--workers", "1"]) == 2
    assert "sweep: all runs were refused: nothing was measured" in capsys.readouterr().err
    assert (folder / "out.csv").read_text().count(",refused,") == 3


def test_a_scheduler_that_is_not_there_is_told(folder, monkeypatch, capsys):
    monkeypatch.chdir(folder)
    monkeypatch.setattr("streettools.sweep.clusters.ANSWER", 1)
    made = slurm.papers(folder)
    papers = ["--tls-ca", str(made.authority), "--tls-cert", str(made.certificate), "--tls-key", str(made.key)]
    assert run(["sweep", "study.toml", "-o", "out.csv", "--scheduler", "tls://127.0.0.1:9", *papers]) == 1
    assert capsys.readouterr().err.startswith("sweep: no scheduler of Dask answers at tls://127.0.0.1:9")


def test_a_study_of_a_milliard_runs_is_not_begun_unasked(folder, monkeypatch, capsys):
    monkeypatch.chdir(folder)
    offsets = 'cell = ["pattern", 1, 3]\ncabinet = 2\nvalues = [0, 10, 20, 95]'
    modes = 'cell = ["unit", 1]\nvalues = [2, 3, 4]'
    text = STUDY
    for place, (cell, last) in enumerate(((offsets, 100000), (modes, 2000))):
        assert cell in text
        text = text.replace(cell, f'path = "cabinets[{place}].clock"\nrange = {{from = 1, to = {last}}}')
    (folder / "study.toml").write_text(text)
    assert run(["sweep", "study.toml", "-o", "out.csv"]) == 2
    assert capsys.readouterr().err == "sweep: the study makes 1,000,000,000 runs: --yes allows more than 100,000\n"
    assert not (folder / "out.csv.runs").exists()


def test_a_table_of_another_form_is_refused_before_anything_runs(folder, monkeypatch, capsys):
    monkeypatch.chdir(folder)
    assert run(["sweep", "study.toml", "-o", "out.xlsx"]) == 2
    assert run(["sweep", "study.toml", "-o", "nowhere/out.csv"]) == 1
    assert "no such folder" in capsys.readouterr().err


def test_the_first_parameter_changes_slowest_and_the_seed_fastest():
    rows = [parameter("a", values=[1, 2]), parameter("b", range={"from": 0, "to": 0.5, "step": 0.25})]
    line = {"lose": 0.1}
    variants = Variants(study(vary=rows, seeds=[7, 9], line=line))
    shown = [(*variants.at(it).values, variants.at(it).seed) for it in range(variants.count())]
    assert shown == [(a, b, seed) for a in (1, 2) for b in (0, 0.25, 0.5) for seed in (7, 9)]


def test_random_samples_lie_in_their_range_and_are_the_same_again():
    rows = [
        parameter("a", random={"from": 0, "to": 80, "step": 5}),
        parameter("b", random={"from": 1, "to": 2}),
        parameter("c", values=[1, 2]),
    ]
    one, other = (Variants(study(vary=rows, samples=200, sample_seed=3)) for _ in range(2))
    drawn = [one.at(it).values for it in range(one.count())]
    assert one.count() == 400 and drawn == [other.at(it).values for it in reversed(range(400))][::-1]
    assert {it[0] for it in drawn} == set(range(0, 81, 5)) and {it[1] for it in drawn} == {1, 2}
    assert [it[:2] for it in drawn[:200]] == [it[:2] for it in drawn[200:]]
    assert drawn != [Variants(study(vary=rows, samples=200, sample_seed=4)).at(it).values for it in range(400)]


def test_samples_without_a_random_parameter_are_refused():
    with pytest.raises(Fault, match="samples needs a random parameter"):
        study(vary=[parameter("a", values=[1])], samples=5)


def test_a_value_is_put_as_plus_and_times():
    document = {"scenario": {"cabinets": [{"cells": [["unit", 1, 3]]}, {}]}, "traffic": {"flow": [{"vehicles": 1}]}}
    Put(None, ("split", 1, 4, 3), (2,), -1, 60).put(document, 25)
    Put("traffic.flow[0].vehicles", None, None, 2, 0).put(document, 90)
    Put("master.poll_every", None, None, 1, 0).put(document, 5)
    Put(None, ("unit", 1), None, 1, 0).put(document, 4)
    assert document["scenario"]["cabinets"] == [
        {"cells": [["unit", 1, 3], ["unit", 1, 4]]},
        {"cells": [["split", 1, 4, 3, 35], ["unit", 1, 4]]},
    ]
    assert document["traffic"]["flow"][0]["vehicles"] == 180 and document["scenario"]["master"] == {"poll_every": 5}


def test_a_disk_that_is_full_is_told_and_what_was_done_is_kept(tmp_path):
    path, row = tmp_path / "t.csv.runs", ["done", None, "0" * 16, 1.5]
    before = resource.getrlimit(resource.RLIMIT_FSIZE)
    with Journal(path, False) as journal:
        journal.add([("a", row)])
        try:
            resource.setrlimit(resource.RLIMIT_FSIZE, (path.stat().st_size + 20, before[1]))
            with pytest.raises(Fault, match="File too large; earlier runs are kept, and --resume continues"):
                journal.add([("b", row), ("c", row)])
        finally:
            resource.setrlimit(resource.RLIMIT_FSIZE, before)
    with Journal(path, False) as journal:
        assert journal.row("a") == row and "b" not in journal and "c" not in journal
        journal.add([("b", row), ("f", ["failed", "why", None, None])])
        with pytest.raises(Fault, match="another sweep is writing this table"):
            Journal(path, False)
    with Journal(path, False) as journal:
        assert "b" in journal and "f" not in journal
