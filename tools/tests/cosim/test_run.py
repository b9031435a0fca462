"""SUMO and the cabinets side by side: a run of 120 s, and runs that end before their time."""

import contextlib
import json
import pathlib
import signal
import stat
import subprocess
import sys
import time
import xml.etree.ElementTree as xml

import pytest

from streettools.cosim import records
from streettools.cosim.records import Kind

from .conftest import PROGRAM, SECONDS, STREET, TOP, change, cosim, needs_sumo, run_tee

pytestmark = needs_sumo


LINES = """<routes>
    <vType id="bus" vClass="bus" length="12" accel="1.2" decel="2.5" sigma="0.5"/>
    <vType id="train" vClass="rail" length="100" maxSpeed="22.22"/>
    <vType id="walker" vClass="pedestrian"/>
    <trip id="bus-east.0" type="bus" depart="0" from="e0" to="e4" departLane="1" departSpeed="max"/>
    <trip id="train.0" type="train" depart="5" from="rail-far" to="rail-gone" departSpeed="max"/>
    <person id="over-main.0" type="walker" depart="10" departPos="290"><walk edges="n1 up1"/></person>
    <person id="over-side.0" type="walker" depart="10" departPos="250"><walk edges="e2 e3"/></person>
</routes>
"""


@pytest.fixture(scope="module")
def street(tmp_path_factory) -> pathlib.Path:
    """Returns the folder of a run of 120 s, in steps of 1 s, with buses, persons and a train that come early."""
    folder = tmp_path_factory.mktemp("street")
    (folder / "lines.rou.xml").write_text(LINES)
    for name in ("street.net.xml", "cars.rou.xml", "stops.add.xml", "street.sumocfg"):
        (folder / name).write_bytes((STREET / name).read_bytes())
    words = ["--sumo", folder / "street.sumocfg", "--map", STREET / "street.map.toml"]
    words += ["--scenario", STREET / "east.json"]
    ran = cosim("run", *words, "--seconds", 120, "--step", 1, "--seed", 3, "-o", folder / "out")
    assert ran.status == 0, ran
    return folder / "out"


def study_of(folder: pathlib.Path) -> records.Study:
    """Returns the study of a run."""
    return records.load(folder / "study.json")


def test_check_says_yes_to_the_trace(street):
    trace = (street / "session.trace").read_bytes()
    ran = subprocess.run([PROGRAM, "check"], input=trace, capture_output=True)
    assert (ran.returncode, ran.stderr) == (0, b"")
    assert trace.endswith(b"Z 120\n")


def test_trips_are_those_that_sumo_tells(street):
    told = {it.get("id"): it for it in xml.parse(street / "tripinfo.xml").getroot() if it.tag == "tripinfo"}
    trips = {it.vehicle: it for it in study_of(street).trips if it.kind is not Kind.PERSON}
    assert set(trips) == set(told) and len(trips) > 50
    for name, it in trips.items():
        assert it.stops == int(told[name].get("waitingCount"))
        due = sum(float(told[name].get(it)) for it in ("timeLoss", "departDelay"))
        assert it.delay == pytest.approx(due, abs=0.01)


def test_delays_at_stop_lines_come_to_about_the_time_that_sumo_says_is_lost(street):
    """SUMO counts what is lost against the speed of each lane; stop lines leave out what is lost behind the last."""
    done = [it for it in study_of(street).trips if it.kind is Kind.CAR and it.arrive and it.passages]
    at_lines = sum(sum(row.delay for row in it.passages) for it in done)
    assert at_lines == pytest.approx(sum(it.delay for it in done), rel=0.25)


def test_who_passes_a_stop_line_on_green_alone_does_not_stop_there(street):
    passages = [it for it in study_of(street).passages if it.delay < 2]
    assert passages and not any(it.stopped for it in passages)
    assert all(it.released >= it.arrived for it in study_of(street).passages)


def test_buses_ask_and_take_back(street):
    study = study_of(street)
    assert study.requests and all(it.phase in (2, 6) for it in study.requests)
    first = study.requests[0]
    passed = next(row.released for it in study.trips if it.vehicle == first.vehicle for row in it.passages)
    assert first.made < passed <= first.cancelled <= passed + 2
    assert b'"stream":"priority"' in (street / "session.trace").read_bytes().split(b"\n", 1)[0]


def test_a_train_is_a_preempt_on_and_off(street):
    scenario = json.loads((street / "session.trace").read_bytes().split(b"\n", 1)[0][2:])
    told = [(it["preempt"], it["on"]) for it in scenario["inputs"] if "preempt" in it]
    assert told == [(1, True), (1, False)]
    frames = [it.split() for it in (street / "session.trace").read_text().splitlines() if it.startswith("F 4 ")]
    assert any(frame[5].startswith("P1") for frame in frames)


def test_persons_press_buttons_and_walk(street):
    scenario = json.loads((street / "session.trace").read_bytes().split(b"\n", 1)[0][2:])
    pressed = {(it["cabinet"], it["ped"]) for it in scenario["inputs"] if "ped" in it}
    assert pressed and pressed <= {(2, 8), (3, 2)}
    persons = [it for it in study_of(street).trips if it.kind is Kind.PERSON]
    assert any(it.passages for it in persons)


def test_the_trip_of_a_person_is_the_whole_way_and_its_delay_the_waits_at_crossings(street):
    told = {it.get("id"): it for it in xml.parse(street / "tripinfo.xml").getroot() if it.tag == "personinfo"}
    persons = [it for it in study_of(street).trips if it.kind is Kind.PERSON]
    assert persons
    for it in persons:
        walk = told[it.vehicle].find("walk")
        assert it.depart == pytest.approx(float(told[it.vehicle].get("depart")))
        ended = float(walk.get("arrival", -1))
        assert it.arrive == (None if ended < 0 else pytest.approx(ended))
        assert it.delay == pytest.approx(sum(row.released - row.arrived for row in it.passages), abs=0.01)


def test_the_report_stands_beside_the_trace(street):
    value = json.loads((street / "report.json").read_text())
    assert {it["kind"] for it in value["kinds"]} >= {"car", "bus", "person"}
    assert "EBT" in (street / "report.txt").read_text()


def test_the_same_seed_gives_the_same_trace(tee):
    traces = []
    for _ in range(2):
        assert run_tee(tee, "--seed", 5).status == 0
        traces.append((tee / "out/session.trace").read_bytes())
    assert traces[0] == traces[1]


def test_steps_of_a_tenth_of_a_second(tee):
    assert run_tee(tee, "--step", 0.1, "--seconds", 20).status == 0
    trace = (tee / "out/session.trace").read_bytes()
    assert subprocess.run([PROGRAM, "check"], input=trace, capture_output=True).returncode == 0


def test_an_error_of_sumo_ends_the_run_and_what_was_recorded_is_kept(tee):
    """A trip to an edge that isn't there is read at second 20, behind the one before it."""
    trips = [("fine", 20, "out-east"), ("lost", 30, "nowhere")]
    rows = [f'<trip id="{name}" depart="{second}" from="in-east" to="{end}"/>' for name, second, end in trips]
    (tee / "tee.rou.xml").write_text(f"<routes>{''.join(rows)}</routes>")
    change(tee / "tee.sumocfg", "</input>", '<route-steps value="1"/></input>')
    ran = run_tee(tee)
    assert ran.status == 1 and ran.said[-1].startswith("cosim: SUMO ended by an error: The edge 'nowhere'")
    trace = (tee / "out/session.trace").read_bytes()
    assert trace.startswith(b"S {") and subprocess.run([PROGRAM, "check"], input=trace).returncode == 0


def test_a_configuration_that_sumo_refuses_is_one_line(tee):
    (tee / "tee.rou.xml").unlink()
    ran = run_tee(tee)
    assert ran.status == 1 and len(ran.said) == 1 and "SUMO ended by an error" in ran.said[0]


def test_ctrl_c_keeps_what_was_recorded(tee):
    """A run of an hour, interrupted as soon as SUMO has told of a vehicle."""
    words = ["--sumo", tee / "tee.sumocfg", "--map", tee / "tee.map.toml", "--scenario", tee / "tee.json"]
    words += ["--step", 0.1, "-o", tee / "out"]
    command = [sys.executable, "-B", TOP / "tools/streettools", "cosim", "run", "--program", PROGRAM, *words]
    with subprocess.Popen([str(it) for it in command], stderr=subprocess.PIPE, stdout=subprocess.DEVNULL) as running:
        wait_for(lambda: "vType" in (tee / "out/tripinfo.xml").read_text(), running)
        running.send_signal(signal.SIGINT)
        said = running.communicate(timeout=SECONDS)[1]
    assert running.returncode == 130 and said.endswith(b"cosim: interrupted; what was recorded is kept\n")
    trace = (tee / "out/session.trace").read_bytes()
    assert subprocess.run([PROGRAM, "check"], input=trace).returncode == 0


def wait_for(is_so, running):
    """Waits until something is so, while a process runs."""
    for _ in range(20 * SECONDS):
        assert running.poll() is None
        with contextlib.suppress(OSError):
            if is_so():
                return
        time.sleep(0.05)
    raise AssertionError("it did not come about")


ALL_GREEN = """#!/usr/bin/python3
# speaks the dialogue of a session, and shows phases 2 and 8 green at once from tick 200 on
import sys
def say(*lines):
    sys.stdout.write("".join(line + "\\n" for line in (*lines, ".")))
    sys.stdout.flush()
sys.stdin.readline()
say("F 1 0 RRRRRRRRRRRRRRRR DDDDDDDDDDDDDDDD S 0 0 0", "R 1")
tick = 0
for line in sys.stdin:
    words = line.split()
    lines = []
    if words[0] == "tick":
        tick += int(words[1])
        if tick == 200:
            lines.append("F 1 200 RGRRRGRGRRRRRRRR DDDDDDDDDDDDDDDD F 0 0 0")
        lines += [f"J 1 4*10", f"R {tick // 10 + 1}"]
    say(*lines)
say("J 1 4*10", f"Z {tick // 10 + 1}")
"""


def test_a_controller_that_gives_two_crossing_links_way_ends_the_run(tee):
    program = tee / "all-green"
    program.write_text(ALL_GREEN)
    program.chmod(program.stat().st_mode | stat.S_IXUSR)
    ran = run_tee(tee, "--program", program)
    assert ran.status == 2 and ran.said[-1].startswith("cosim: second 20.0: signal t shows ")
    assert ran.said[-1].endswith(" cross, and both have way")
    assert (tee / "out/session.trace").exists()


def test_what_cant_be_read_is_one_line(tee):
    for words, line in (
        (["--sumo", tee / "none.sumocfg"], "No such file"),
        (["--map", tee / "none.toml"], "No such file"),
        (["--scenario", tee / "tee.net.xml"], "not JSON"),
        (["--program", tee / "none"], "no program at"),
    ):
        ran = run_tee(tee, *words)
        assert ran.status != 0 and len(ran.said) == 1 and line in ran.said[0], ran
