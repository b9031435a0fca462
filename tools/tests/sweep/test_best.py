"""`./arterial sweep best`: what it finds against all plans tried one by one, and against the present plan on other
seeds, by queues and under SUMO; its table whatever the workers, the budget, interruptions, and plans that break
rules."""

import csv
import itertools
import json
import math
import os
import shutil
import signal
import statistics
import subprocess
import time
import tomllib

import pytest
from streettools.plan import rules
from streettools.shared.cells import tables_of

from .conftest import TOP, begun, ended, environment, sweep

THREE = {"version": 1, "rounds": 20, "ticks": 10, "cabinets": [{"pattern": 1}, {"pattern": 1}, {"pattern": 1}]}
OFFSET = """\
[[vary]]
name = "offset{0}"
range = {{ from = 0, to = {1}, step = {2} }}
cell = ["pattern", 1, 3]
cabinet = {0}
"""
BANDS = """\
scenario = "three.json"
measures = ["band_outbound", "band_inbound"]
[street]
travel = {travel}
[best]
goal = {goal}
wanted = "highest"
budget = 57
"""
WAITS = """\
scenario = "two.json"
seeds = 3
measures = ["services"]
[traffic]
[[traffic.flow]]
cabinet = [1, 2]
phase = [4, 8]
vehicles = 400
[street]
travel = [10]
[best]
goal = {{ wait_mean = 1, "wait_greatest each phase" = 0.5, band_outbound = -0.2 }}
budget = {budget}
held_back = 4
{more}
[[vary]]
name = "mode"
cell = ["unit", 1]
values = [2, 3, 4]
"""
TWO = {"version": 1, "rounds": 60, "ticks": 10, "cabinets": [{"pattern": 1}, {"pattern": 1}]}
DELAY = """\
scenario = "half.json"
from = 300
seeds = 3
[volumes]
file = "volumes.toml"
[best]
goal = { delay_mean = 1 }
budget = 240
held_back = 12
"""
COMPARE = """\
seeds = {seeds}
seconds = 1800
step = 1
warm = 300
against = "best"
[[plan]]
name = "best"
scenario = "{scenario}"
offsets = {best}
[[plan]]
name = "other"
scenario = "{scenario}"
offsets = {other}
"""


def best(folder, study, *words, out="out"):
    """Runs the command for a study in a folder, and returns its status, its output and what it said."""
    (folder / "best.toml").write_text(study)
    return sweep(folder, "best", "best.toml", "-o", out, *words)


def table(folder, out="out"):
    """Returns the rows of the table of runs."""
    with open(folder / out / "tries.csv", newline="") as file:
        return list(csv.DictReader(file))


def texts(folder, out):
    """Returns the content of each file that a search has left."""
    return {it.name: it.read_bytes() for it in sorted((folder / out).iterdir())}


def waits(budget=60, more="", to=89):
    """Returns the study of two cabinets, whose waits count."""
    return WAITS.format(budget=budget, more=more) + OFFSET.format(2, to, 1)


@pytest.fixture
def two(tmp_path, program):
    """A folder with two cabinets for a minute."""
    (tmp_path / "two.json").write_text(json.dumps(TWO))
    return tmp_path


def widths(program, offsets, travel):
    """Returns the widths of the widest bands of three cabinets with some offsets, as `arterial band` says."""
    cells = [[], *([["pattern", 1, 3, it]] for it in offsets)]
    scenario = THREE | {"cabinets": [it | {"cells": its} for it, its in zip(THREE["cabinets"], cells)]}
    question = {"scenario": scenario, "section": 1, "pattern": 1, "travel": [10 * it for it in travel]}
    asked = subprocess.run([program, "band"], input=json.dumps(question).encode(), capture_output=True, check=True)
    lines = [it.split()[1:] for it in asked.stdout.decode().splitlines()]
    return [0.0 if it == ["none"] else int(it[1]) / 10 for it in lines]


@pytest.mark.parametrize("travel, weights", [((17, 31), (1, 1)), ((20, 20), (1, 0)), ((12, 26), (1, 2))])
def test_the_search_finds_the_bands_that_all_offsets_of_three_cabinets_have(tmp_path, program, travel, weights):
    (tmp_path / "three.json").write_text(json.dumps(THREE))
    names = [f"band_{way} = {weight}" for way, weight in zip(("outbound", "inbound"), weights) if weight]
    study = BANDS.format(travel=list(travel), goal="{ " + ", ".join(names) + " }")
    status, _, said = best(tmp_path, study + OFFSET.format(2, 84, 12) + OFFSET.format(3, 84, 12))
    assert status == 0, said
    every = {
        pair: sum(weight * width for weight, width in zip(weights, widths(program, pair, travel)))
        for pair in itertools.product(range(0, 85, 12), repeat=2)
    }
    rows = [it for it in table(tmp_path) if it["offset2"]]
    for it in rows:
        assert float(it["goal"]) == pytest.approx(every[int(it["offset2"]), int(it["offset3"])])
    assert max(float(it["goal"]) for it in rows) == pytest.approx(max(every.values()))


@pytest.fixture(scope="module")
def street(tmp_path_factory, program):
    """A folder with the street of four for half an hour, and a search for its offsets."""
    folder = tmp_path_factory.mktemp("street")
    scenario = json.loads((TOP / "scenarios/street.json").read_text()) | {"rounds": 1800}
    (folder / "half.json").write_text(json.dumps(scenario))
    shutil.copy(TOP / "scenarios/street.volumes.toml", folder / "volumes.toml")
    study = DELAY + "".join(OFFSET.format(it, 89, 1) for it in (2, 3, 4))
    status, out, said = best(folder, study)
    assert status == 0, said
    return folder


def offsets(scenario):
    """Returns the offsets of pattern 1."""
    return [tables_of(it).pattern(1, 3) for it in scenario["cabinets"]]


def test_the_search_beats_the_present_offsets_of_the_street_on_seeds_that_it_did_not_use(street):
    found = json.loads((street / "out/comparison.json").read_text())
    assert found["seeds"] == list(range(4, 16))
    row = found["rows"][0]
    value, half = row["more"]
    assert row["differs"] == "less" and value + half < 0
    assert f"the goal is {-value:.2f} less" in (street / "out/comparison.txt").read_text()
    assert len(table(street)) == 240


def more_delay(folder, head, **names):
    """Compares the best plan with other offsets; returns how many seconds more delay these have, and half of the
    interval."""
    found = offsets(json.loads((folder / "out/best.json").read_text()))
    (folder / "plans.toml").write_text(head + COMPARE.format(best=found, **names))
    command = ["/usr/bin/python3", "-B", "-m", "streettools", "cosim", "compare", "plans.toml", "-o", "compared",
               "--json", "--workers", "4"]  # fmt: skip
    done = subprocess.run(command, cwd=folder, env=environment(), capture_output=True, text=True, timeout=1200)
    assert done.returncode == 0, done.stderr
    rows = json.loads(done.stdout)["rows"]
    return next(it["more_delay"] for it in rows if it["group"] == "all vehicles" and it["plan"] == "other")


@pytest.mark.parametrize("other", [[0, 20, 40, 60], [0, 0, 0, 0]], ids=["present", "zero"])
def test_other_offsets_have_more_delay_in_the_model_of_queues_by_cosim_compare(street, other):
    head = 'volumes = "volumes.toml"\n'
    value, half = more_delay(street, head, scenario="half.json", other=other, seeds=list(range(101, 111)))
    assert value - half > 0, (value, half)


def test_offsets_of_zero_have_more_delay_than_the_found_ones_under_sumo(street):
    if shutil.which("sumo") is None:
        pytest.skip("sumo is missing: apt-get install -y sumo sumo-tools")
    where = TOP / "scenarios/sumo/street"
    head = f'sumo = "{where}/cars.sumocfg"\nmap = "{where}/street.map.toml"\n'
    value, half = more_delay(street, head, scenario=where / "east.json", other=[0, 0, 0, 0], seeds=3)
    assert value - half > 0, (value, half)


@pytest.fixture(scope="module")
def whole(tmp_path_factory, program):
    """The files of a search with one worker that nothing interrupted, with its file of runs."""
    folder = tmp_path_factory.mktemp("whole")
    (folder / "two.json").write_text(json.dumps(TWO))
    status, _, said = best(folder, waits(), "--keep", "--workers", 1)
    assert status == 0, said
    return texts(folder, "out")


@pytest.mark.parametrize("workers", [2, 4])
def test_the_table_and_all_other_files_are_the_same_for_any_number_of_workers(two, whole, workers):
    status, _, said = best(two, waits(), "--workers", workers)
    assert status == 0, said
    assert texts(two, "out") == {name: it for name, it in whole.items() if name != "runs"}


def test_another_seed_of_the_search_tries_other_plans_and_the_budget_is_spent_exactly(two):
    plans = {}
    for seed, budget in ((1, 120), (2, 120), (1, 100)):
        assert best(two, waits(budget, f"seed = {seed}"), "--anew")[0] == 0
        rows = plans[seed, budget] = table(two)
        assert len(rows) == budget - budget % 3
        assert [int(it["plan"]) for it in rows] == [1 + place // 3 for place in range(len(rows))]
    assert plans[1, 120] != plans[2, 120] and plans[1, 120][:99] == plans[1, 100]


def test_a_space_with_fewer_plans_than_the_budget_is_tried_whole(two):
    status, _, said = best(two, waits(300, to=4))
    assert status == 0, said
    tried = {(it["mode"], it["offset2"]) for it in table(two) if it["mode"]}
    # the present plan is one of the 15: it isn't run again
    assert len(tried) == 14 and len(table(two)) == 15 * 3


def test_the_goal_is_the_weighted_sum_with_the_worst_phase_of_each(two):
    study = waits().replace('measures = ["services"]', 'measures = ["services", "wait_greatest each phase"]')
    status, _, said = best(two, study)
    assert status == 0, said
    rows = table(two)
    for it in rows:
        worst = max(float(value) for name, value in it.items() if name.startswith("wait_greatest_c") and value)
        expected = float(it["wait_mean"]) + 0.5 * worst - 0.2 * float(it["band_outbound"])
        assert float(it["goal"]) == pytest.approx(expected)
    means = [statistics.fmean(float(it["goal"]) for it in rows[at : at + 3]) for at in range(0, len(rows), 3)]
    assert f"best: plan {1 + means.index(min(means))}," in said and f"goal {min(means):.6g}" in said


def test_the_comparison_is_that_of_a_sweep_over_the_held_back_seeds(two):
    assert best(two, waits())[0] == 0
    found = json.loads((two / "out/comparison.json").read_text())
    assert found["seeds"] == [4, 5, 6, 7]
    means = {}
    for name, scenario in (("present", "two.json"), ("best", "out/best.json")):
        text = waits().replace('"two.json"', f'"{scenario}"').replace("seeds = 3", "seeds = [4, 5, 6, 7]")
        text = text[: text.index("[best]")].replace('["services"]', '["services", "wait_mean"]')
        (two / "again.toml").write_text(text)
        assert sweep(two, "again.toml", "-o", f"{name}.csv")[0] == 0
        with open(two / f"{name}.csv", newline="") as file:
            means[name] = [float(it["wait_mean"]) for it in csv.DictReader(file)]
    row = next(it for it in found["rows"] if it["measure"] == "wait_mean")
    assert row["present"][0] == pytest.approx(statistics.fmean(means["present"]))
    assert row["best"][0] == pytest.approx(statistics.fmean(means["best"]))
    pairs = [b - a for a, b in zip(means["present"], means["best"])]
    # Student's two-sided point of 95 % with three degrees of freedom is 3.182
    half = 3.182 * statistics.stdev(pairs) / math.sqrt(4)
    assert row["more"] == pytest.approx([statistics.fmean(pairs), half], abs=1e-3)


@pytest.mark.parametrize("runs", [1, 20, 55])
def test_a_search_that_was_interrupted_and_resumed_leaves_the_same_bytes(two, whole, runs):
    (two / "best.toml").write_text(waits())
    command = begun(two, "best", "best.toml", "-o", "out", "--keep", "--workers", 2)
    until, journal = time.monotonic() + 300, two / "out/runs"
    while time.monotonic() < until and not (journal.exists() and journal.read_bytes().count(b"\n") > runs):
        time.sleep(0.002)
    os.kill(command.pid, signal.SIGINT)
    status, _, said = ended(command)
    assert status in (0, 130)
    if status:
        assert "runs are kept" in said
        assert "use --resume to continue" in sweep(two, "best", "best.toml", "-o", "out")[2]
        assert sweep(two, "best", "best.toml", "-o", "out", "--resume")[0] == 0
        assert texts(two, "out") == {name: it for name, it in whole.items() if name != "runs"}


@pytest.mark.parametrize("share", [0.3, 0.97])
def test_a_search_continues_from_any_prefix_of_its_file_of_runs(two, whole, share):
    runs = whole["runs"]
    (two / "out").mkdir()
    (two / "out/runs").write_bytes(runs[: int(share * len(runs))])
    assert best(two, waits(), "--resume")[0] == 0
    assert texts(two, "out") == {name: it for name, it in whole.items() if name != "runs"}


SPLITS = """\
scenario = "two.json"
measures = ["services"]
[street]
travel = [10]
[best]
goal = { band_outbound = 1, band_inbound = 1 }
wanted = "highest"
budget = 40
[[vary]]
name = "cycle"
cell = ["pattern", 1, 2]
values = CYCLES
[[vary]]
name = "main"
cell = ["split", 1, 2, 3]
range = { from = 10, to = 60, step = 10 }
"""


def test_plans_that_break_rules_are_repaired_or_left_out_and_never_run(two):
    status, _, said = best(two, SPLITS.replace("CYCLES", "[20, 80, 100]") + OFFSET.format(2, 120, 5))
    assert status == 0, said
    rows = table(two)
    assert {it["outcome"] for it in rows} == {"done"} and any(it["repaired"] == "1" for it in rows)
    assert not [it for it in rows if it["cycle"] == "20"], "no splits fit a cycle of 20 s"
    assert "plans repaired" in said and "plans left out" in said
    for it in json.loads((two / "out/best.json").read_text())["cabinets"]:
        tables = tables_of(it)
        assert rules.broken(tables) == []
        for ring in (1, 2):
            assert sum(tables.split(1, phase, 3) for phase in tables.sequence(1, ring)) == tables.pattern(1, 2)


def test_an_offset_beyond_the_cycle_is_the_same_plan_as_that_within_it(two):
    study = SPLITS[: SPLITS.index("[[vary]]")] + OFFSET.format(2, 120, 30)
    assert best(two, study)[0] == 0
    # 0 is the present plan, and 90 the same; 120 is the same as 30
    tried = [it["offset2"] for it in table(two)]
    assert tried[0] == "" and sorted(int(it) % 90 for it in tried[1:]) == [30, 60]


@pytest.mark.parametrize("present", ["", 'present = "wrong.json"'])
def test_a_study_without_a_plan_that_keeps_the_rules_ends_with_one_line(two, present):
    wrong = TWO | {"cabinets": [{"pattern": 1, "cells": [["phase", 2, 22, 2]]}, {"pattern": 1}]}
    (two / "wrong.json").write_text(json.dumps(wrong))
    study = waits(30, present).replace('"two.json"', '"wrong.json"')
    status, out, said = best(two, study)
    assert (status, out) == (2, "")
    assert len(said.splitlines()) == 1
    assert "no plan of the study keeps the rules" in said and "cabinet 1 breaks rule" in said


def test_a_present_plan_that_breaks_a_rule_is_not_run_and_nothing_is_compared(two):
    wrong = TWO | {"cabinets": [{"pattern": 1, "cells": [["phase", 2, 22, 2]]}, {"pattern": 1}]}
    (two / "wrong.json").write_text(json.dumps(wrong))
    status, out, said = best(two, waits(30, 'present = "wrong.json"'))
    assert (status, out) == (0, "") and "the present plan was not run" in said
    assert not (two / "out/comparison.txt").exists() and len(table(two)) == 30


def test_the_best_plan_is_a_sheet_with_its_comments_where_the_study_has_a_sheet(tmp_path, program):
    sheet = TOP / "scenarios/sheets/main-street.toml"
    shutil.copy(sheet, tmp_path / "main.toml")
    study = SPLITS.replace('"two.json"', '"main.toml"').replace("travel = [10]", "").replace("CYCLES", "[100]")
    status, _, said = best(tmp_path, study + OFFSET.format(2, 60, 20))
    assert status == 0, said
    before, after = sheet.read_text().splitlines(), (tmp_path / "out/best.toml").read_text().splitlines()
    assert len(before) == len(after)
    changed = {new.split(" =")[0] for old, new in zip(before, after) if old != new}
    assert changed and changed <= {"cycle", "offset", "splits"}
    words = ["/usr/bin/python3", "-B", "-m", "streettools", "plan", "scenario", "out/best.toml"]
    made = subprocess.run(words, cwd=tmp_path, env=environment(), capture_output=True, text=True, timeout=300)
    assert made.returncode == 0, made.stderr
    one, other = (json.loads(it)["cabinets"] for it in (made.stdout, (tmp_path / "out/best.json").read_text()))
    assert [tables_of(it).cells for it in one] == [tables_of(it).cells for it in other]


HOSTILE = {
    "a goal that is text": ("goal = {", 'goal = "delay_mean" # {', "best.goal has to be a table"),
    "an empty goal": ("goal = { ", "goal = {} # ", "best.goal is empty"),
    "a weight that is not a number": ("wait_mean = 1", "wait_mean = nan", "nan is not allowed as a number"),
    "a weight that is infinite": ("wait_mean = 1", "wait_mean = inf", "inf is not allowed as a number"),
    "a weight that is text": ("wait_mean = 1", 'wait_mean = "1"', "best.goal.wait_mean has to be a number"),
    "a weight of nothing": ("wait_mean = 1", "wait_mean = 0", "best.goal.wait_mean is 0"),
    "an unknown measure": ("wait_mean = 1", "wait_man = 1", "unknown measure 'wait_man'; did you mean wait_mean?"),
    "a budget of nothing": ("budget = 60", "budget = 0", "best.budget is 0, and has to be 3 to 1,000,000 runs"),
    "a budget below a plan": ("budget = 60", "budget = 2", "best.budget is 2"),
    "a budget that is text": ("budget = 60", 'budget = "60"', "best.budget has to be a whole number"),
    "no budget": ("budget = 60", "", "best.budget is missing"),
    "no table": ("[best]", "[besst]", "best is missing"),
    "a name that is unknown": ("budget = 60", "budget = 60\nruns = 3", "best.runs is unknown"),
    "another aim": ("budget = 60", 'budget = 60\nwanted = "least"', "best.wanted is 'least', and has to be lowest or"),
    "a single seed held back": ("held_back = 4", "held_back = 1", "best.held_back is 1, and has to be 2 to 1000"),
    "a present plan that isn't there": ("held_back = 4", 'held_back = 4\npresent = "no.json"', "No such file"),
    "a random parameter": ("values = [2, 3, 4]", "random = { from = 2, to = 4 }", "not random"),
    "a measure of queues without volumes": ("wait_mean = 1", "delay_mean = 1", "delay_mean needs the table volumes"),
}


@pytest.mark.parametrize("name", HOSTILE)
def test_a_study_that_cannot_be_searched_is_refused_by_one_line(two, name, capfd, monkeypatch):
    from streettools.words import run

    old, new, words = HOSTILE[name]
    assert old in waits()
    monkeypatch.chdir(two)
    (two / "best.toml").write_text(waits().replace(old, new, 1))
    assert run(["sweep", "best", "best.toml", "-o", "out"]) == (1 if "No such" in words else 2)
    out, said = capfd.readouterr()
    assert out == "" and len(said.splitlines()) == 1 and words in said, said
    assert not (two / "out").exists()


def test_tables_of_any_shape_are_refused_or_read(two):
    """A thousand tables with values of any kind, none of which may end in anything but a refusal in words."""
    import random

    from streettools.shared.fault import Fault
    from streettools.sweep.best.wanted import wanted_of

    document, draw = tomllib.loads(waits()), random.Random(7)
    values = (0, -1, 2**62, 1e300, -0.5, "", "x", True, [], [1], {}, {"a": 1}, {"services": 1}, [{}], "wait_mean")
    kinds = {True: 0, False: 0}
    for _ in range(1000):
        made = {name: it.copy() if isinstance(it, dict) else it for name, it in document.items()}
        for _ in range(draw.randint(1, 2)):
            at = made["best"] if draw.random() < 0.7 and isinstance(made["best"], dict) else made
            at[draw.choice([*at, "own", "present", "seed", "measures"])] = draw.choice(values)
            if not isinstance(made.get("best"), dict):
                break
        try:
            wanted_of(made, lambda name: json.dumps(TWO).encode())
            kinds[True] += 1
        except Fault as fault:
            assert len(str(fault).splitlines()) == 1
            kinds[False] += 1
    assert min(kinds.values()) > 5
