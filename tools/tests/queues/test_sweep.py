"""Volumes in a study: measures of vehicles beside those of the trace, seeds, and what is refused."""

import json
import os

import pytest

from .conftest import program_here
from streettools.cosim import report
from streettools.cosim.queues import study
from streettools.cosim.queues.study import Asked
from streettools.cosim.queues.volumes import volumes_of
from streettools.shared.fault import Fault
from streettools.sweep.files import Files
from streettools.sweep.prepared import modules, prepared

SCENARIO = {"version": 1, "rounds": 100, "ticks": 10, "cabinets": [{"pattern": 1}]}
VOLUMES = b"""\
[[cabinet]]
number = 1
movements = [
  { name = "EBT", phase = 2, volume = 700, lanes = 2 },
  { name = "WBT", phase = 6, volume = 500, lanes = 2 },
  { name = "NBT", phase = 8, volume = 200 },
  { name = "SBT", phase = 4, volume = 200 },
]
idle = [1, 3, 5, 7]
"""
FILES = {"one.json": json.dumps(SCENARIO).encode(), "one.volumes.toml": VOLUMES}
STUDY = {
    "scenario": "one.json",
    "seeds": 2,
    "measures": ["delay_mean", "delay_mean each phase", "vehicles", "queue_greatest", "services phase 4"],
    "volumes": {"file": "one.volumes.toml"},
    "vary": [{"name": "offset", "cell": ["pattern", 1, 3], "values": [0, 95]}],
}


def ready(**more):
    """Returns a study made ready."""
    return prepared(STUDY | more, FILES.__getitem__, program_here())


def rows(**more) -> list[dict]:
    """Returns the rows of a study that has run."""
    study = ready(**more)
    runner = study.runner("--check" in os.environ, 600)
    names = study.names()[1:]
    variants = (study.variants.at(it) for it in range(study.variants.count()))
    return [dict(zip(names, study.line(it.index, runner.row(it))[1:])) for it in variants]


def test_a_study_with_volumes_has_the_measures_of_the_report_and_those_of_the_trace():
    one, other, refused, _ = rows()
    asked = Asked(100.0, 10, 1)
    volumes = volumes_of(__import__("tomllib").loads(VOLUMES.decode()))
    ran = study.run(str(program_here()), volumes, SCENARIO, asked, lambda step: None)
    import pathlib

    value = report.collect(study.study_of(ran, pathlib.Path()), ran.signals.greens)
    east = next(it for it in value["movements"] if it["movement"] == "EBT")
    assert round(one["delay_mean_c1_p2"], 1) == pytest.approx(east["delay"], abs=0.051)
    assert one["vehicles"] == sum(it["vehicles"] for it in value["movements"])
    assert one["services_p4"] > 0 and one["delay_mean_c1_p1"] is None
    assert one["outcome"] == "done" and one["delay_mean"] != other["delay_mean"]
    assert (refused["outcome"], refused["words"]) == ("refused", "scenario: cabinet 1 breaks rule 15 at row 1")


def test_the_factor_of_the_volumes_may_vary():
    vary = [{"name": "factor", "path": "volumes.factor", "values": [0.5, 2.0]}]
    few, many = rows(vary=vary, seeds=[1], measures=["vehicles", "split_failures"])
    assert few["vehicles"] < many["vehicles"]


@pytest.mark.parametrize(
    ("more", "line"),
    [
        ({"volumes": {"file": "one.volumes.toml", "fil": 1}}, "study: volumes.fil is unknown; did you mean file?"),
        ({"traffic": {"flow": [{"cabinet": 1, "phase": 2, "vehicles": 9}]}},
         "study: traffic.flow and volumes exclude each other: each defines what the detectors see"),
    ],
)  # fmt: skip
def test_a_table_of_volumes_that_can_not_be_taken_is_refused(more, line):
    with pytest.raises(Fault) as fault:
        ready(**more)
    assert str(fault.value) == line


def test_measures_of_vehicles_need_volumes():
    study = {name: it for name, it in STUDY.items() if name not in ("volumes", "seeds")}
    with pytest.raises(Fault, match="study: delay_mean needs the table volumes, which has the traffic"):
        prepared(study, FILES.__getitem__, program_here())


def test_volumes_that_do_not_fit_the_scenario_are_a_refused_row():
    files = FILES | {"one.volumes.toml": VOLUMES.replace(b"idle = [1, 3, 5, 7]", b"")}
    study = prepared(STUDY | {"seeds": [1], "vary": []}, files.__getitem__, program_here())
    outcome, words, *_ = study.runner(False, 600).row(study.variants.at(0))
    assert outcome == "refused" and words.startswith("volumes: phase 1 of cabinet 1 has no movement")


def test_the_modules_that_a_worker_needs_go_along():
    given = modules()
    assert {"cosim/queues/study.py", "cosim/movements.py", "cosim/records.py", "cosim/__init__.py"} <= set(given)
    assert not any("pictures" in name and name.startswith("cosim") for name in given)


SHEET = """
[run]
rounds = 60
[[intersection]]
name = "Oak"
travel = 12
rings = ["1 2 | 4", "6 | -"]
[[intersection]]
name = "Elm"
rings = ["1 2 | 4", "6 | -"]
"""


def test_a_study_of_a_timing_sheet_takes_from_it_what_the_volumes_leave_out(program, tmp_path):
    """The time of travel is that of the sheet, 12 s, and phase 8, which only the rings need, is idle."""
    movements = '{ name = "EBT", phase = 2, volume = 900, to = "2 EB" }, { name = "WBT", phase = 6, volume = 9 }'
    rest = '{ name = "WBL", phase = 1, volume = 9 }, { name = "NBL", phase = 4, volume = 9 }'
    cabinets = [f"[[cabinet]]\nnumber = {number}\nmovements = [{movements}, {rest}]\n" for number in (1, 2)]
    (tmp_path / "oak.toml").write_text(SHEET)
    (tmp_path / "oak.volumes.toml").write_text(cabinets[0] + cabinets[1].replace(', to = "2 EB"', ""))
    given = {"scenario": "oak.toml", "measures": ["vehicles"], "volumes": {"file": "oak.volumes.toml"}}
    vary = [{"name": "offset", "cell": ["phase", 4, 6], "values": [20, 30]}]
    files = Files(tmp_path)
    study = prepared(given | {"vary": vary}, files, program)
    assert set(files.read) == {"oak.toml", "oak.toml.facts", "oak.volumes.toml"}, "what the workers get"
    built = study.builder.built(study.variants.at(0))
    assert [it.onward.travel for it in built.queued.volumes.flows if it.onward] == [12.0]
    assert built.queued.volumes.idle == {(1, 8), (2, 8)}
    rows = [dict(zip(study.names()[1:], study.line(it, study.runner(False, 600).row(study.variants.at(it)))[1:]))
            for it in (0, 1)]  # fmt: skip
    assert all(it["outcome"] == "done" and it["vehicles"] > 5 for it in rows), rows
    bands = prepared(given | {"vary": vary, "street": {}, "measures": ["band_outbound"]}, files, program)
    assert bands.builder.built(bands.variants.at(0)).street.travel == (120,)
