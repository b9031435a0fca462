"""A run with a left turn that is protected and permissive, a right turn as an overlap, and a fire engine: what SUMO
itself writes of its signals and of the engine stands beside the trace."""

import json
import pathlib
import shutil
import subprocess
import xml.etree.ElementTree as xml

import pytest

from streettools.cosim import network
from streettools.cosim.mapping import read_map

from .conftest import PROGRAM, TEE, change, needs_sumo, run_tee

pytestmark = needs_sumo

SECONDS, AHEAD = 120, 150
WRITES = """<additional><timedEvent type="SaveTLSStates" source="t" dest="states.xml"/></additional>"""
TRAFFIC = """<routes>
    <vType id="car" sigma="0.5" speedDev="0.08"/>
    <vType id="engine" vClass="emergency" length="8"/>
    <flow id="left" type="car" from="in-west" to="out-south" begin="0" end="120" period="6" departLane="best"/>
    <flow id="east" type="car" from="in-east" to="out-east" begin="0" end="120" period="5" departLane="best"/>
    <flow id="right" type="car" from="in-north" to="out-east" begin="0" end="120" period="15" departLane="best"/>
    <vehicle id="engine.0" type="engine" depart="60" departLane="best"><route edges="in-north out-west"/></vehicle>
</routes>
"""
PREEMPT = f"""
[[preempt]]
cabinet = 1
number = 3
vehicles = ["emergency"]
ahead = {AHEAD}
phases = [8]

[[preempt]]
cabinet = 1
number = 4
vehicles = ["emergency"]
ahead = {AHEAD}
phases = [2]
"""
CELLS = [["preempt", 3, 13, "0408"], ["preempt", 3, 15, "0206"], ["preempt", 4, 13, "0206"], ["preempt", 4, 15, "0408"]]
TRAIL, YELLOW, RED = 2, 31, 9


@pytest.fixture(scope="module")
def folder(tmp_path_factory) -> pathlib.Path:
    """Returns the folder of the T-intersection after a run of 120 s. The left turn into the stem is permissive under
    phase 2, the right turn out of it is an overlap of phases 8 and 1."""
    tee = tmp_path_factory.mktemp("turns") / "tee"
    shutil.copytree(TEE, tee)
    (tee / "tee.rou.xml").write_text(TRAFFIC)
    (tee / "states.add.xml").write_text(WRITES)
    change(tee / "tee.sumocfg", "</input>", '<additional-files value="states.add.xml"/></input>')
    change(tee / "tee.sumocfg", "</configuration>", '<output><fcd-output value="fcd.xml"/></output></configuration>')
    change(tee / "tee.map.toml", 'name = "WBL"\nphase = 1', 'name = "WBL"\nphase = 1\npermissive = 2')
    times = f"trail = {TRAIL}\nyellow = {YELLOW}\nred = {RED}"
    change(tee / "tee.map.toml", 'name = "NBR"\nphase = 8', f'name = "NBR"\nparents = [8, 1]\n{times}')
    (tee / "tee.map.toml").write_text((tee / "tee.map.toml").read_text() + PREEMPT)
    change(tee / "tee.json", "{}", json.dumps({"cells": CELLS}))
    ran = run_tee(tee, "--seconds", SECONDS)
    assert ran.status == 0, ran
    return tee


def states(folder: pathlib.Path) -> dict[int, dict[str, str]]:
    """Returns what SUMO wrote of its signal: for each second the letter of each movement."""
    places = {link.name: link.index for link in network.read(TEE / "tee.net.xml").links["t"]}
    movements = read_map(folder / "tee.map.toml").signals[0].movements
    rows = xml.parse(folder / "states.xml").getroot()
    shown = {it.name: places[it.links[0]] for it in movements}
    return {
        round(float(row.get("time"))): {name: row.get("state")[place] for name, place in shown.items()} for row in rows
    }


def colours(folder: pathlib.Path) -> list[str]:
    """Returns the colours of the cabinet's phases, by the trace: one text for each second."""
    frames = [line.split(" ") for line in (folder / "out/session.trace").read_text().splitlines() if line[:2] == "F "]
    return [[it[3] for it in frames if int(it[2]) <= 10 * second][-1] for second in range(SECONDS)]


def test_a_left_turn_has_way_under_its_phase_and_yields_under_the_one_from_opposite(folder):
    due = {("G", "R"): "G", ("Y", "R"): "y", ("R", "G"): "g", ("R", "Y"): "y", ("C", "R"): "r", ("R", "C"): "r"}
    shown, seen = states(folder), set()
    for second, row in enumerate(colours(folder)):
        pair = row[0], row[1]
        if second in shown:
            assert shown[second]["WBL"] == due.get(pair, "r"), (second, pair)
            seen.add(pair)
    assert {("G", "R"), ("R", "G"), ("R", "Y")} <= seen


def test_an_overlap_shows_what_arterial_overlaps_says_of_the_trace(folder):
    words = ["--cabinet", "1", "--parents", "0801", "--trail", TRAIL, "--yellow", YELLOW, "--red", RED]
    trace = (folder / "out/session.trace").read_bytes()
    command = [PROGRAM, "overlaps", *map(str, words)]
    said = subprocess.run(command, input=trace, capture_output=True, check=True).stdout.decode()
    rows = [line.split(" ") for line in said.splitlines() if line.startswith("O ")]
    changes = [(int(tick), letter) for _, tick, letter in rows]
    shown, letters = states(folder), {"G": "g", "Y": "y", "C": "r", "R": "r"}
    for second in range(1, SECONDS):
        due = [letter for tick, letter in changes if tick <= 10 * second][-1]
        if second in shown:
            assert shown[second]["NBR"] == letters[due], second
    assert {"G", "Y", "R"} <= {letter for _, letter in changes}


def test_a_fire_engine_is_the_preempt_of_its_way_while_it_is_near(folder):
    """By SUMO's own record of its places: on within 150 m of the stop line, until its end has left it."""
    scenario = json.loads((folder / "out/session.trace").read_bytes().split(b"\n", 1)[0][2:])
    told = [(it["round"], it["preempt"], it["on"]) for it in scenario["inputs"] if "preempt" in it]
    line = network.read(TEE / "tee.net.xml").lanes["in-north_2"]
    rows = xml.parse(folder / "fcd.xml").getroot()
    places = [
        (round(float(step.get("time"))), it.get("lane"), float(it.get("pos")))
        for step in rows
        for it in step
        if it.get("id") == "engine.0"
    ]
    near = [second for second, lane, at in places if lane.startswith("in-north") and line - at <= AHEAD]
    past = [second for second, lane, at in places if not lane.startswith("in-north")]
    (on, off) = told
    assert on[1:] == (3, True) and off[1:] == (3, False)
    assert abs(on[0] - near[0]) <= 2 and 0 <= off[0] - past[0] <= 4
    frames = [row.split(" ") for row in (folder / "out/session.trace").read_text().splitlines() if row[:2] == "F "]
    assert any(it[5].startswith("P3") for it in frames)


def test_check_says_yes_to_the_trace(folder):
    trace = (folder / "out/session.trace").read_bytes()
    assert subprocess.run([PROGRAM, "check"], input=trace, capture_output=True).returncode == 0
