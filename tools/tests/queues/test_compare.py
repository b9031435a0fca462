"""Plans compared by volumes and queues: the same vehicles under each, differences seed by seed, and what they mean."""

import json

import pytest

from streettools import words
from streettools.cosim import verdicts
from streettools.cosim.comparison import Row, Terms
from streettools.cosim.queues.given import read_volumes
from streettools.cosim.queues.routes import is_route
from streettools.cosim.totals import Mean, mean_of

from .conftest import TOP
from .test_command import VOLUMES, called, folder

__all__ = ["folder"]
COMPARISON = """\
volumes = "one.volumes.toml"
seeds = {seeds}
seconds = 120
[[plan]]
name = "one"
scenario = "one.json"
[[plan]]
name = "the same"
scenario = "one.json"
{more}
"""
TERMS = Terms((1, 2, 3, 4, 5), 1.0, 3600.0, 0.0, (), "one")


def row(values: list[float]) -> Row:
    """Returns the row of a plan whose delays are so much more, seed by seed."""
    more = mean_of(values)
    return Row("two", "all vehicles", 100, Mean(20.0, 1.0), Mean(1.0, 0.1), more, more)


@pytest.mark.parametrize(
    ("values", "verdict", "sentence"),
    [
        # mean 3, deviation 1.5811, Student's point for 4 degrees 2.776: 2.776 × 1.5811 / √5 = 1.963
        ([1, 2, 3, 4, 5], "more",
         "'two' has 3.0 s more delay a vehicle than 'one' (1.0 to 5.0 s at 95 % over 5 seeds)"),
        ([-1, -2, -3, -4, -5], "less", "'two' has 3.0 s less delay a vehicle than 'one' (1.0 to 5.0 s"),
        ([-1, 0, 1, 2, 3], "no real difference",
         "'two' has no real difference in delay from 'one' (-1.0 to +3.0 s at 95 % over 5 seeds)"),
        ([0, 0, 0, 0, 0], "no real difference", "'two' has no real difference in delay from 'one' (+0.0 to +0.0 s"),
        ([4], "unknown", "'two' has 4.0 s more delay a vehicle than 'one' with one seed, which can't tell whether the"),
    ],
)  # fmt: skip
def test_a_difference_is_real_if_its_interval_hasnt_0_in_it(values, verdict, sentence):
    it = row(values)
    assert verdicts.verdict(it.more_delay) == verdict
    assert sentence in " ".join(verdicts.sentences(TERMS, [it]))


def test_plans_are_compared_without_sumo(folder):
    """A plan differs from itself by nothing; a sheet with a shorter cycle by something; persons and cabinets count."""
    (folder / "two.toml").write_text('[[intersection]]\nname = "Oak"\ncommand = "free"\n')
    more = '[[plan]]\nname = "free"\nscenario = "two.toml"'
    (folder / "plans.toml").write_text(COMPARISON.format(seeds=2, more=more))
    ran = called(folder, "compare", "plans.toml", "-o", "out", "--keep")
    assert (ran.returncode, ran.stderr) == (0, "")
    value = json.loads((folder / "out/comparison.json").read_text())
    of = {(it["plan"], it["group"]): it for it in value["rows"]}
    assert {group for _, group in of} == {"all vehicles", "persons", "at Oak"}
    assert value["width"] is None
    # from clock 0 on the counter is 840 ticks ahead, and 120 s are less than the nine cycles that correct it
    assert value["undisturbed"] == {"one": 0, "the same": 0, "free": 0}
    assert "coordination undisturbed: one 0.0%, the same 0.0%, free 0.0% of the time" in ran.stdout
    assert (of["the same", "all vehicles"]["delay_p"], of["one", "all vehicles"]["delay_p"]) == (1, None)
    assert of["the same", "all vehicles"]["more_delay"] == [0.0, 0.0]
    assert of["the same", "all vehicles"]["delay_differs"] == "no real difference"
    assert of["free", "all vehicles"]["trips"] == of["one", "all vehicles"]["trips"]
    assert of["free", "all vehicles"]["more_delay"][0] != 0
    assert "'the same' has no real difference in delay from 'one' " in ran.stdout
    assert {it.name for it in (folder / "out/03-2").iterdir()} == {
        "report.json", "report.txt", "session.trace", "session.names.json", "study.json"
    }  # fmt: skip
    assert "1 Oak" in (folder / "out/03-2/report.txt").read_text()


@pytest.mark.parametrize(
    ("more", "line"),
    [
        ('[[plan]]\nname = "three"\nscenario = "one.json"\noffsets = [1, 2]', "plan three: 2 offsets for 1 cabinets"),
        ('[[plan]]\nname = "three"\nscenario = "free.json"\noffsets = [1]', "cabinet 1 has none: write pattern = 1"),
        ('[[plan]]\nname = "three"\nscenario = "one.json"\noffsets = [250]', "plan three: scenario: cabinet 1 breaks"),
        ('[[plan]]\nname = "three"\nscenario = "none.json"', "none.json: No such file or directory"),
        ('[[plan]]\nname = "three"\nscenario = "one.json"\ncontroller = "nema"', "controller is unknown"),
        ('[[plan]]\nname = "one"\nscenario = "one.json"', "each with a different name"),
    ],
)
def test_what_is_wrong_with_a_comparison_is_one_line_before_anything_runs(folder, capsys, program, more, line):
    (folder / "free.json").write_text('{"version": 1, "rounds": 60, "ticks": 10, "cabinets": [{}]}')
    (folder / "plans.toml").write_text(COMPARISON.format(seeds="[1]", more=more))
    status = words.run(["cosim", "compare", str(folder / "plans.toml"), "--program", str(program)])
    said = capsys.readouterr()
    assert status in (1, 2) and said.out == ""
    assert line in said.err and said.err.count("\n") == 1, said.err


HALF = '[[plan]]\nname = "half"\nscenario = "one.json"\nvolumes = "half.toml"'


def test_a_plan_may_have_volumes_of_its_own(folder):
    """A tenth of the eastbound vehicles come; the crossing and the other movements stay as they are."""
    (folder / "half.toml").write_text(VOLUMES.replace("volume = 700", "volume = 70"))
    head = COMPARISON.replace("seconds = 120", 'seconds = 240\nroutes = ["EBT 1", "WBT 1"]')
    (folder / "plans.toml").write_text(head.format(seeds=[3], more=HALF))
    ran = called(folder, "compare", "plans.toml", "--json")
    assert (ran.returncode, ran.stderr) == (0, "")
    trips = {(it["plan"], it["group"]): it["trips"] for it in json.loads(ran.stdout)["rows"]}
    assert trips["half", "EBT 1"] < trips["one", "EBT 1"] / 3
    for group in ("WBT 1", "persons"):
        assert trips["half", group] == trips["one", group], group


@pytest.mark.parametrize(
    ("old", "new", "routes", "line"),
    [
        ("crossings =", "# crossings =", "[]", "the volumes of plan one have persons, those of plan half haven't"),
        ("EBT", "EBX", '["EBT 1"]', "plan half: its volumes have no route EBT 1"),
        ("EBT", "EBT", '["EBT 1-2"]', "plan one: its volumes have no route EBT 1-2"),
    ],
)
def test_plans_without_the_same_groups_or_routes_are_refused(folder, capsys, program, old, new, routes, line):
    (folder / "half.toml").write_text(VOLUMES.replace(old, new))
    head = COMPARISON.replace("seconds = 120", f"seconds = 120\nroutes = {routes}")
    (folder / "plans.toml").write_text(head.format(seeds=[1], more=HALF))
    assert words.run(["cosim", "compare", str(folder / "plans.toml"), "--program", str(program)]) == 2
    said = capsys.readouterr()
    assert line in said.err and said.err.count("\n") == 1 and said.out == ""


def test_routes_are_known_by_the_ways_through_the_street():
    volumes = read_volumes(TOP / "scenarios/street.volumes.toml")
    for name in ("EBT 1-4", "EBT 1-2", "WBT 4-1", "EBT 1-2, EBL 3", "NBT 2", "EBL 1"):
        assert is_route(volumes, name), name
    for name in ("EBT 2-4", "EBT 1-5", "EBT 1-2, WBT 1", "EBT 1, EBL 3", "EBT", "EBT 1-2, ", ""):
        assert not is_route(volumes, name), name
