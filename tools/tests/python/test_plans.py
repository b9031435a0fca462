"""Plans and scenarios as objects: they come back as they were, say what is wrong, and give downloads and bands."""

import json

import arterial
import jsonschema
import pytest

from .conftest import ONE, TOP

SCENARIOS = sorted(it for it in (TOP / "scenarios").glob("*.json") if not it.name.endswith("field.json"))
SHEET = TOP / "scenarios/sheets/main-street.toml"


@pytest.mark.parametrize("path", SCENARIOS, ids=lambda it: it.name)
def test_a_scenario_comes_back_as_the_same_json(path):
    value = json.loads(path.read_text())
    assert arterial.Scenario.of(path).value() == value


def test_data_classes_write_what_the_schema_allows():
    """One of each class."""
    cells = [["phase", 2, 8, 43]]
    scenario = arterial.Scenario(
        rounds=60, version=2, community="bench",
        cabinets=[arterial.Cabinet(base="max8", cells=cells, pattern=1, clock=252_000, section=2, gain=12_000)],
        master=arterial.Master(clock=0, poll_every=1, retries=2, schedule=[arterial.Entry(25_200, 2, 1)]),
        inputs=[arterial.Vehicle(1, 1, 4), arterial.Pedestrian(2, 1, 4), arterial.Preempt(3, 1, 1, False)],
        loads=[arterial.Load(1, 1, cells)],
        priority=[arterial.Request(1, 1, 1, 2, 3, 2, 50, 80), arterial.Cancel(9, 1, 1)],
        frames=[arterial.Message(1, 1, "poll", "30")],
        faults_of_link=[arterial.LinkFault(1, 1, "poll", "down", "late", by=2)],
    )  # fmt: skip
    value = scenario.value()
    jsonschema.validate(value, json.loads((TOP / "docs/scenario.schema.json").read_text()))
    assert value["priority"][0]["class"] == 2 and value["faults"][0]["by"] == 2 and scenario.faults() == []
    assert arterial.Scenario.of(value) == scenario
    assert arterial.check(arterial.run(scenario))


def test_what_is_wrong_with_a_scenario_is_listed_with_its_path(tmp_path):
    scenario = arterial.Scenario(rounds=0, cabinets=[arterial.Cabinet(clock=864_000)])
    assert [it.split(":")[0] for it in scenario.faults()] == ["rounds", "cabinets[0].clock"]
    with pytest.raises(arterial.Refused) as fault:
        arterial.Scenario.of(ONE | {"inputs": [{"round": 61, "cabinet": 1, "ped": 4}]})
    assert fault.value.path == "inputs[0].round"
    assert arterial.Scenario.of(arterial.Scenario(rounds=5).save(tmp_path / "five.json")).rounds == 5


def test_a_sheet_is_the_scenario_that_the_command_makes_of_it():
    """tools/streettools/plan/reading.py makes both; a check finds nothing that the program would refuse."""
    plan = arterial.Plan.read(SHEET)
    assert plan.is_accepted() and plan.names.called(1) == "Main St & 1st Ave"
    assert arterial.Plan.text(plan.sheet()).value() == plan.value()
    assert arterial.check(plan.run())


def test_errors_of_a_plan_name_rule_and_intersection():
    """scenarios/tutorial/as-entered.toml has the mistakes of the tutorial."""
    found = arterial.Plan.read(TOP / "scenarios/tutorial/as-entered.toml").check()
    assert found[0].level == "error" and found[0].rule and found[0].where
    assert [it.level for it in found] == sorted((it.level for it in found), key=["error", "warning", "note"].index)


def test_a_plan_that_cant_be_taken_lists_its_faults():
    plan = arterial.Plan.text('[[intersection]]\ncolour = "red"\n')
    assert [it.level for it in plan.check()][0] == "error"
    for does in (plan.value, plan.run, plan.sheet, plan.bands, lambda: arterial.run(plan), lambda: plan.names):
        with pytest.raises(arterial.Refused, match="colour"):
            does()
    with pytest.raises(arterial.Error, match="/nowhere"):
        arterial.Plan.read("/nowhere/plan.toml")


def test_a_plan_is_checked_where_there_is_no_program(monkeypatch):
    monkeypatch.setenv("ARTERIAL_PROGRAM", "/nowhere/arterial")
    found = arterial.Plan.read(SHEET).check()
    assert [it.words for it in found if "bands are not looked at" in it.words] and found[0].level != "error"


def test_downloads_bring_one_plan_to_another(program):
    """Offsets of pattern 1: 0 in the old plan, 12 s in the new one."""
    old = arterial.Plan.scenario(ONE)
    new = arterial.Plan.scenario(ONE | {"cabinets": [{"cells": [["pattern", 1, 3, 12]]}]})
    assert old.loads(new, round=3) == [{"round": 3, "cabinet": 1, "cells": [["pattern", 1, 3, 12]]}]
    with arterial.live(old) as street:
        assert all(street.load(it["cabinet"], it["cells"]).accepted for it in old.loads(new))
        street.tick(1)
        assert street.get(1, "patternOffsetTime.1") == 12
    wrong = arterial.Plan.scenario(ONE | {"cabinets": [{"cells": [["phase", 2, 8, 20]]}]})
    with pytest.raises(arterial.Refused, match="yellow"):
        old.loads(wrong)


def test_bands_are_those_of_the_band_page():
    """Two cabinets whose offsets differ by the travel time: both greens of 24.5 s (a split of 30 s less 5.5 s) meet the
    same vehicles outbound."""
    cabinets = [{"pattern": 1}, {"pattern": 1, "cells": [["pattern", 1, 3, 20]]}]
    bands = arterial.Plan.scenario(ONE | {"cabinets": cabinets}).bands([20.0])
    assert bands.outbound is not None and bands.outbound.width_s == 24.5
    with pytest.raises(arterial.Refused, match="travel_s"):
        arterial.Plan.scenario(ONE | {"cabinets": cabinets}).bands()
    with pytest.raises(arterial.Error):
        arterial.Plan.scenario(ONE | {"cabinets": cabinets}).bands([20.0], pattern=9)


def test_a_plan_is_written_in_each_form_and_comes_back(tmp_path):
    plan = arterial.Plan.read(SHEET)
    for suffix in ("toml", "xlsx", "json"):
        assert arterial.Plan.read(plan.save(tmp_path / f"plan.{suffix}")).value() == plan.value()
    again = arterial.Plan.utdf(plan.save(tmp_path / "plan.csv"))
    assert len(again.value()["cabinets"]) == len(plan.value()["cabinets"]) and again.notes
    with pytest.raises(arterial.Error, match="ends in"):
        plan.save(tmp_path / "plan.doc")
    with pytest.raises(arterial.Error, match="nowhere.csv"):
        arterial.Plan.utdf(tmp_path / "nowhere.csv")


def test_a_pattern_is_drawn_in_one_call(tmp_path):
    plan = arterial.Plan.read(SHEET)
    assert "<svg" in plan.plot(path=tmp_path / "plan.png").svg and (tmp_path / "plan.png").stat().st_size > 1000
    with pytest.raises(arterial.Refused, match="intersection"):
        plan.plot(9)
