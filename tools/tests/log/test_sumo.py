"""Logs of SUMO's own controllers: an independent script makes them from runs of the real SUMO; they are judged,
replayed and compared."""

import json
import shutil
import subprocess

import pytest

from .conftest import TOP

STREET = TOP / "scenarios/sumo/street"
SCRIPT = TOP / "tools/tests/log/sumo_log.py"
DEVICES = [word for number in range(4) for word in ("--device", f"c{number}={number + 1}")]
SECONDS = 500
needs_sumo = pytest.mark.skipif(shutil.which("sumo") is None, reason="SUMO is not installed")


def programs(path, controller, scenario):
    """Writes SUMO's program of each signal, with the times of a scenario."""
    from streettools.cosim import network, yardsticks
    from streettools.cosim.drive import read_config
    from streettools.cosim.loop import Given
    from streettools.cosim.mapping import read_map

    street, net = read_map(STREET / "street.map.toml"), network.read(STREET / "street.net.xml")
    given = Given(read_config(STREET / "cars.sumocfg"), street, net, scenario, 0.1, float(SECONDS))
    yardsticks.programs(given, controller).write(path, encoding="unicode")


def field_file(scenario, channels):
    """Returns the scenario with the detectors of the log."""
    rest = {"delay": 0, "extend": 0, "no_activity": 0, "max_presence": 0, "erratic": 0}
    bank = [
        {"cabinet": int(name[1:]) + 1, "detector": int(channel), "phase": phase, **rest}
        for name, its in channels.items()
        for channel, phase in its.items()
    ]
    return {"scenario": scenario, "bank": bank}


@pytest.fixture(scope="module")
def made(tmp_path_factory):
    """Returns the log of a controller, and its plan; SUMO runs once for each."""
    kept = {}

    def done(controller, scenario_name, *words):
        if controller not in kept:
            assert SECONDS > 100, "the first breach of NEMA is at 74.7 s"
            folder = tmp_path_factory.mktemp(controller)
            scenario = json.loads((STREET / scenario_name).read_text())
            programs(folder / "programs.add.xml", controller, scenario)
            given = [STREET / "cars.sumocfg", folder / "programs.add.xml", STREET / "street.map.toml", SECONDS]
            subprocess.run(
                ["/usr/bin/python3", SCRIPT, *map(str, given), folder / "day.csv", folder / "channels.json", *words],
                check=True, timeout=280, capture_output=True,
            )  # fmt: skip
            plan = field_file(scenario, json.loads((folder / "channels.json").read_text()))
            (folder / "plan.json").write_text(json.dumps(plan))
            kept[controller] = folder / "day.csv", folder / "plan.json"
        return kept[controller]

    return done


def judged(log, day, plan, status):
    """Returns the report of a log as JSON."""
    return json.loads(
        log("judge", day, "--sheet", plan, *DEVICES, "--tolerance", "0", "--json", status=status).out
    )


@needs_sumo
def test_sumos_nema_controller_lets_a_phase_begin_beyond_the_barrier_too_early(log, made):
    """At 07:01:14.7 SUMO shows phase 6 green at c1, and names 4+6 active: phase 4 is in its red clearance until
    07:01:15.7. Phases 4 and 6 are on different sides of the barrier. All lengths are those of the plan, to the tick."""
    found = judged(log, *made("nema", "east.json", "--pattern", "1"), 8)
    assert set(found["counts"]) == {"apart"} and found["rows"] > 1000 and len(found["cabinets"]) == 4
    first = found["breaches"][0]
    assert (first["place"], first["time"], first["phase"], first["other"]) == ("cabinet 2", "07:01:14.7", 4, 6)
    assert first["words"] == "phase 4 red clearance and phase 6 green together; the plan has them in conflict"


@needs_sumo
def test_sumos_actuated_controller_keeps_the_times_of_the_plan(log, made):
    assert judged(log, *made("actuated", "free.json"), 0)["breaches"] == []


@needs_sumo
def test_the_bench_replays_the_traffic_of_sumo_in_the_same_cycles(log, made, program, tmp_path):
    """Both run the pattern of 90 s by the same clock: so cycles begin together, to within what an early return to the
    main street makes of them."""
    day, plan = made("nema", "east.json", "--pattern", "1")
    again = tmp_path / "again.json"
    log("replay", day, "--sheet", plan, *DEVICES, "-o", again)
    scenario = json.loads(again.read_text())
    assert len(scenario["inputs"]) > 200 and {it["cabinet"] for it in scenario["inputs"]} == {1, 2, 3, 4}
    trace = tmp_path / "again.trace"
    trace.write_bytes(
        subprocess.run([program, "run"], input=again.read_bytes(), capture_output=True, check=True).stdout
    )
    words = ("--from", "07:01:00", "--json")
    found = json.loads(log("compare", day, trace, "--sheet", plan, *DEVICES, *words).out)
    first = found["cabinets"][0]
    assert first["reference"] == 2 and first["log_cycle"] == pytest.approx(900, abs=60)
    assert first["offset_distance"] < 30 and first["parting"]["share"] > 0.7


@needs_sumo
def test_another_plan_is_found_in_the_log(log, made, tmp_path):
    """The plan has half a second more of yellow for phase 2 of cabinet 1 than SUMO runs."""
    day, plan = made("nema", "east.json", "--pattern", "1")
    changed = json.loads(plan.read_text())
    changed["scenario"]["cabinets"][0]["cells"].append(["phase", 2, 8, 45])
    (tmp_path / "plan.json").write_text(json.dumps(changed))
    found = judged(log, day, tmp_path / "plan.json", 8)
    words = {it["words"] for it in found["breaches"] if it["clause"] == "clearance"}
    assert words == {"phase 2 yellow lasted 4.0 s; the plan has 4.5 s"}
