"""Comparisons over the same seeds, beside SUMO's own controllers, and what is refused of their files."""

import json

import pytest

from streettools.cosim import comparing
from streettools.cosim.comparing import read_comparison, without_walks
from streettools.shared.fault import Fault

from .conftest import PROGRAM, STREET, TEE, change, cosim, needs_sumo

HEAD = f"""sumo = "{TEE / 'tee.sumocfg'}"
map = "{TEE / 'tee.map.toml'}"
seeds = [1, 2]
seconds = 60
step = 1
warm = 5
routes = ["east"]
"""


def plan(name: str, more: str = "") -> str:
    """Returns a plan of a comparison."""
    return f'[[plan]]\nname = "{name}"\nscenario = "{TEE / "tee.json"}"\n{more}\n'


@needs_sumo
def test_a_plan_differs_from_itself_by_nothing_and_sumos_controllers_run_beside_it(tmp_path):
    path = tmp_path / "plans.toml"
    path.write_text(HEAD + plan("one") + plan("the same") + plan("actuated", 'controller = "actuated"')
                    + plan("static", 'controller = "static"'))  # fmt: skip
    ran = cosim("compare", path, "-o", tmp_path / "out")
    assert ran.status == 0, ran
    rows = json.loads((tmp_path / "out/comparison.json").read_text())["rows"]
    of = {(it["plan"], it["group"]): it for it in rows}
    assert {name for name, _ in of} == {"one", "the same", "actuated", "static"}
    assert of["one", "east"]["more_delay"] is None
    assert of["the same", "east"]["more_delay"] == of["the same", "all vehicles"]["more_stops"] == [0.0, 0.0]
    assert len({of[name, "all vehicles"]["trips"] for name in ("one", "actuated", "static")}) == 1
    assert "paired by seed" in ran.out and sorted(it.name for it in (tmp_path / "out").iterdir()) == [
        "comparison.json",
        "comparison.txt",
    ]


@needs_sumo
def test_sumos_nema_controller_runs_the_same_street(tmp_path):
    """In step with the same pattern the delays of all vehicles are near each other."""
    text = (STREET / "yardsticks.toml").read_text()
    text = text.replace("[1, 2, 3]", "[1]").replace("3600", "150").replace("300", "20")
    for name in ("cars.sumocfg", "street.map.toml", "east.json"):
        text = text.replace(f'"{name}"', f'"{STREET / name}"')
    (tmp_path / "plans.toml").write_text("[[plan]]".join(text.split("[[plan]]")[:3]))
    ran = cosim("compare", tmp_path / "plans.toml", "-o", tmp_path / "out")
    assert ran.status == 0, ran
    rows = json.loads((tmp_path / "out/comparison.json").read_text())["rows"]
    own, nema = (it["delay"][0] for it in rows if it["group"] == "all vehicles")
    assert nema == pytest.approx(own, rel=0.5)


@needs_sumo
def test_plans_may_have_maps_of_their_own(tmp_path):
    """The left turn protected only, and permissive in addition."""
    text = (TEE / "tee.map.toml").read_text()
    own = 'name = "WBL"\nphase = 1\n'
    assert own in text
    (tmp_path / "both.map.toml").write_text(text.replace(own, own + "permissive = 2\n"))
    path = tmp_path / "plans.toml"
    head = HEAD.replace("[1, 2]", "[1]").replace("seconds = 60", "seconds = 300")
    path.write_text(head + plan("protected") + plan("permissive", f'map = "{tmp_path / "both.map.toml"}"'))
    ran = cosim("compare", path, "-o", tmp_path / "out")
    assert ran.status == 0, ran
    rows = json.loads((tmp_path / "out/comparison.json").read_text())["rows"]
    delay = {it["plan"]: it["delay"][0] for it in rows if it["group"] == "all vehicles"}
    assert delay["permissive"] < delay["protected"]
    path.write_text(HEAD + plan("one") + plan("two", 'map = "none.toml"'))
    assert cosim("compare", path, "-o", tmp_path / "out").status == 1


PERSON = '<person id="p.0" depart="5"><walk from="in-north" to="out-west"/></person></routes>'


@needs_sumo
def test_controllers_without_walk_times_are_left_out_where_persons_walk(tee):
    change(tee / "tee.rou.xml", "</routes>", PERSON)
    path = tee / "plans.toml"
    head = HEAD.replace(str(TEE), str(tee))
    path.write_text(head + plan("one") + plan("same") + plan("actuated", 'controller = "actuated"'))
    comparison, left = without_walks(read_comparison(path))
    assert left == ["actuated"] and [it.name for it in comparison.plans] == ["one", "same"]
    path.write_text(head + 'against = "nema"\n' + plan("one") + plan("same") + plan("nema", 'controller = "nema"'))
    ran = cosim("compare", path, "-o", tee / "out")
    assert ran.status == 2 and "nema: SUMO's own controllers have no walk times, and persons walk here" in ran.said[0]


@pytest.mark.parametrize(
    ("text", "line"),
    [
        (HEAD + plan("one"), "plan is needed at least twice"),
        (HEAD + plan("one") + plan("one"), "each with a different name"),
        (HEAD + plan("one") + plan("two", 'controller = "hand"'), "controller is hand"),
        (HEAD + 'against = "three"\n' + plan("one") + plan("two"), "no plan has this name"),
        (HEAD.replace("warm = 5", "warm = 30") + plan("one") + plan("two"), "warm leaves nothing"),
        (HEAD.replace("[1, 2]", "[1, 1]") + plan("one") + plan("two"), "seeds has one twice"),
        (HEAD + plan("one") + plan("two", 'controller = "nema"'), "a phase with traffic on each side of both rings"),
        (HEAD + plan("one") + plan("two", "offset = [1]"), "offset is unknown; did you mean offsets?"),
        (HEAD + plan("one") + plan("two", "offsets = [1]"), "offsets need a pattern in command"),
    ],
)
@needs_sumo
def test_a_file_that_cant_be_taken_is_refused(tmp_path, text, line):
    path = tmp_path / "plans.toml"
    path.write_text(text)
    with pytest.raises(Fault) as raised:
        comparing.jobs_of(comparing.read_comparison(path), str(PROGRAM), tmp_path / "out", False)
    assert line in str(raised.value) and "\n" not in str(raised.value)


@needs_sumo
def test_a_refusal_is_one_line_of_the_command(tmp_path):
    path = tmp_path / "plans.toml"
    path.write_text(HEAD + plan("one"))
    ran = cosim("compare", path, "-o", tmp_path / "out")
    assert ran.status == 2 and len(ran.said) == 1 and not (tmp_path / "out").exists()


@needs_sumo
def test_folders_that_the_comparison_did_not_make_stay_as_they_are(tmp_path):
    """A run's folder `01-1` of before is neither written to nor taken away; with --keep it is refused."""
    path, mine = tmp_path / "plans.toml", tmp_path / "out/01-1/mine"
    path.write_text(HEAD.replace("[1, 2]", "[1]") + plan("one") + plan("the same"))
    mine.parent.mkdir(parents=True)
    mine.write_text("kept")
    ran = cosim("compare", path, "-o", tmp_path / "out", "--keep")
    assert ran.status == 1 and "01-1 is there from an earlier comparison" in ran.said[0]
    assert [it.name for it in (tmp_path / "out").iterdir()] == ["01-1"]
    ran = cosim("compare", path, "-o", tmp_path / "out")
    assert ran.status == 0, ran
    assert mine.read_text() == "kept" and list(mine.parent.iterdir()) == [mine]
    assert sorted(it.name for it in (tmp_path / "out").iterdir()) == ["01-1", "comparison.json", "comparison.txt"]
