"""Maps that the tool writes: the numbering of NEMA, what can't be told, what is refused of a map."""

import pathlib
import shutil
import subprocess
import tomllib

import pytest

from streettools.cosim import checks, network
from streettools.shared.fault import Fault
from streettools.cosim.mapping import read_map

from .conftest import STREET, TEE, change, cosim, here, needs_sumo, run_tee

NEMA = {"EBL": 5, "EBT": 2, "WBL": 1, "WBT": 6, "NBL": 3, "NBT": 8, "SBL": 7, "SBT": 4}
"""The numbers of the Highway Capacity Manual (exhibit of phases and movements): phase 2 eastbound, 8 northbound."""
BESIDE = {"ped S": 2, "ped N": 6, "ped E": 8, "ped W": 4}
"""Persons walk along with the traffic that has them on its right."""


def phases(text: str, signal: str) -> dict[str, int]:
    """Returns the phases of a signal's movements in a map."""
    (found,) = [it for it in tomllib.loads(text)["signal"] if it["id"] == signal]
    return {it["name"]: it["phase"] for it in found["movement"]}


def test_a_street_gets_the_phases_of_nema():
    ran = cosim("map", STREET / "street.net.xml", "--main", "E")
    assert ran.status == 0 and not ran.said
    for signal in ("c0", "c1", "c2", "c3"):
        found = phases(ran.out, signal)
        assert {name: found[name] for name in NEMA} == NEMA
        assert {name: found[name] for name in BESIDE} == BESIDE
        assert {name: found[name] for name in ("EBR", "WBR", "NBR", "SBR")} == {"EBR": 2, "WBR": 6, "NBR": 8, "SBR": 4}


def test_the_main_street_may_be_named():
    found = phases(cosim("map", STREET / "street.net.xml", "--main", "N").out, "c0")
    assert (found["NBT"], found["SBT"], found["NBL"], found["SBL"]) == (2, 6, 5, 1)


def test_the_stem_of_a_t_is_one_phase_and_partners_are_idle():
    """The stem drives north: phase 8, and its partner 4 has no traffic."""
    text = cosim("map", TEE / "tee.net.xml").out
    found = phases(text, "t")
    assert (found["NBL"], found["NBR"], found["EBT"], found["WBT"], found["WBL"]) == (8, 8, 2, 6, 1)
    assert tomllib.loads(text)["signal"][0]["idle"] == [3, 4, 5, 7]


def test_the_maps_that_stand_here_are_those_that_the_tool_writes():
    made = cosim("map", STREET / "street.net.xml", "--main", "E").out
    assert made and (STREET / "street.map.toml").read_text().startswith(made)
    assert (TEE / "tee.map.toml").read_text() == cosim("map", TEE / "tee.net.xml").out


PLACES = {"w": (-200, 0), "e": (200, 0), "s": (0, -200), "far": (-180, -80)}
NODES = [f'<node id="{name}" x="{x}" y="{y}"/>' for name, (x, y) in PLACES.items()]
EDGES = [f'<edge id="{it}" from="{it}" to="c"/><edge id="to-{it}" from="c" to="{it}"/>' for it in PLACES]
FIVE = {
    "n": f"<nodes><node id='c' x='0' y='0' type='traffic_light'/>{''.join(NODES)}</nodes>",
    "e": f"<edges>{''.join(EDGES)}</edges>",
}


@pytest.fixture
def five(tmp_path: pathlib.Path) -> pathlib.Path:
    """Returns a network in which two approaches drive nearly the same way."""
    for name, text in FIVE.items():
        (tmp_path / f"{name}.xml").write_text(text)
    files = [f"--{kind}-files={tmp_path / name}.xml" for kind, name in (("node", "n"), ("edge", "e"))]
    words = ["netconvert", *files, f"--output-file={tmp_path / 'five.net.xml'}", "--no-turnarounds", "--no-warnings"]
    subprocess.run(words, check=True, capture_output=True)
    return tmp_path / "five.net.xml"


@needs_sumo
def test_what_cant_be_told_is_asked_for_and_can_be_answered(five):
    ran = cosim("map", five)
    assert ran.status == 2
    asked = [line for line in ran.said if "far and w both drive E" in line]
    assert asked and all(line.startswith("cosim: signal c: which phase has EB") for line in asked)
    assert '"?"' in ran.out
    places = [line.rpartition("--phase '")[2].removesuffix("=N')") for line in asked]
    answers = [word for place in places for word in ("--phase", f"{place}=2")]
    ran = cosim("map", five, *answers)
    assert '"?"' not in ran.out and ran.status == 2
    assert all(" cross, and " in line for line in ran.said)


@needs_sumo
def test_a_network_with_sumos_own_nema_logic_gives_its_phases(tee):
    """Here the logic numbers the street the other way round: 6 eastbound."""
    text = (tee / "tee.net.xml").read_text()
    start, end = text.index("<tlLogic"), text.index("</tlLogic>")
    size = len(text[start:end].partition('state="')[2].partition('"')[0])
    links = {"WBT": (0, 1), "WBL": (2,), "NB": (3, 4), "EB": (5, 6, 7)}
    rows = [("2", links["WBT"]), ("5", links["WBL"]), ("8", links["NB"]), ("6", links["EB"])]
    stages = ""
    for name, places in rows:
        state = "".join("G" if it in places else "r" for it in range(size))
        times = 'duration="9" minDur="5" maxDur="9" vehext="2" yellow="3" red="1"'
        stages += f'<phase {times} name="{name}" state="{state}"/>'
    (tee / "tee.net.xml").write_text(
        text[:start] + f'<tlLogic id="t" type="NEMA" programID="0" offset="0">{stages}' + text[end:]
    )
    found = phases(cosim("map", tee / "tee.net.xml").out, "t")
    assert (found["EBT"], found["WBT"], found["WBL"], found["NBL"]) == (6, 2, 5, 8)


def refused(folder: pathlib.Path) -> str:
    """Returns the one line with which a run is refused before anything ran."""
    ran = run_tee(folder, by=here)
    assert ran.status == 2 and len(ran.said) == 1, ran
    assert not (folder / "out/session.trace").exists()
    return ran.said[0]


def without_movement(text: str, name: str) -> str:
    """Returns a map without one of its movements."""
    head, _, tail = text.partition(f'[[signal.movement]]\nname = "{name}"')
    return head + tail[tail.index("[[") :]


@needs_sumo
def test_a_link_without_a_phase_is_refused(tee):
    path = tee / "tee.map.toml"
    path.write_text(without_movement(path.read_text(), "WBL"))
    assert "(in-west_3 out-south_1) has no phase" in refused(tee)


@needs_sumo
def test_a_phase_without_a_link_is_refused(tee):
    change(tee / "tee.map.toml", "idle = [3, 4, 5, 7]", "idle = [3, 4, 7]")
    assert "phase 5 of cabinet 1 has no link" in refused(tee)


@needs_sumo
def test_two_conflicting_links_on_one_phase_are_refused(tee):
    change(tee / "tee.map.toml", 'name = "WBL"\nphase = 1', 'name = "WBL"\nphase = 2')
    change(tee / "tee.map.toml", "idle = [3, 4, 5, 7]", "idle = [1, 3, 4, 5, 7]")
    change(tee / "tee.map.toml", "[[signal.detector]]\nphase = 1", "[[signal.detector]]\nphase = 2")
    line = refused(tee)
    assert "WBL (in-west_3 out-south_1)" in line and "cross, and both have phase 2" in line


@needs_sumo
def test_conflicting_links_on_phases_that_may_be_on_at_once_are_refused(tee):
    change(tee / "tee.map.toml", 'name = "WBL"\nphase = 1', 'name = "WBL"\nphase = 5')
    change(tee / "tee.map.toml", "idle = [3, 4, 5, 7]", "idle = [1, 3, 4, 7]")
    change(tee / "tee.map.toml", "[[signal.detector]]\nphase = 1", "[[signal.detector]]\nphase = 5")
    line = refused(tee)
    assert "may be on at once" in line and "WBL" in line and "EB" in line


def test_left_turns_may_be_permissive_under_the_phase_from_opposite():
    """Those of phase 2 turn left on 5 and meet 6, and so on; of the stem of a T nobody comes from opposite."""
    text = cosim("map", STREET / "street.net.xml", "--main", "E", "--permissive").out
    found = {it["name"]: it.get("permissive") for it in tomllib.loads(text)["signal"][0]["movement"]}
    assert {name: it for name, it in found.items() if it} == {"EBL": 6, "WBL": 2, "NBL": 4, "SBL": 8}
    text = cosim("map", TEE / "tee.net.xml", "--permissive").out
    found = {it["name"]: it.get("permissive") for it in tomllib.loads(text)["signal"][0]["movement"]}
    assert {name: it for name, it in found.items() if it} == {"WBL": 2}


def checked(folder: pathlib.Path, permissive: int) -> str:
    """Returns why a map is refused whose eastbound left turns at c0 are permissive under a phase; nothing where not."""
    shutil.copy(STREET / "street.map.toml", folder / "map.toml")
    own = 'name = "EBL"\nphase = 5'
    change(folder / "map.toml", own, f"{own}\npermissive = {permissive}")
    try:
        checks.check(read_map(folder / "map.toml"), network.read(STREET / "street.net.xml"), {"cabinets": [{}] * 4})
    except Fault as fault:
        return str(fault)
    return ""


def test_a_permissive_turn_that_meets_traffic_to_which_it_doesnt_yield_is_refused(tmp_path):
    """The main street's left turn gives way to who comes from opposite (6), not to the side street (8 beside 4)."""
    assert checked(tmp_path, 6) == ""
    line = checked(tmp_path, 4)
    assert "EBL (e0_3 up0_2)" in line and "SBT (s0_1 down0_1)" in line and "cross, and both have phase 4" in line


@needs_sumo
@pytest.mark.parametrize(
    ("old", "new", "line"),
    [
        ('name = "WBL"\nphase = 1', 'name = "WBL"\nphase = 1\npermissive = 1', "permissive must differ from the phase"),
        ('name = "WBL"\nphase = 1', 'name = "WBL"\nphase = 1\npermissive = 9', "phase 9 is not enabled in cabinet 1"),
        ('name = "EBT"', 'parents = [2, 3]\nname = "EBT"', "phase is needed, or parents in its place"),
    ],
)
def test_a_permissive_phase_that_cant_be_is_refused(tee, old, new, line):
    change(tee / "tee.map.toml", old, new)
    assert line in refused(tee)


PREEMPT = '\n[[preempt]]\ncabinet = 1\nnumber = 3\nvehicles = ["emergency"]\n'


@needs_sumo
@pytest.mark.parametrize(
    ("more", "line"),
    [
        ("", "preempt[0].edges is needed, or ahead in its place"),
        ('edges = ["in-east"]\nphases = [2]', "phases goes with ahead"),
        ("ahead = 200\nphases = [9]", "phase 9 is not enabled in cabinet 1"),
        ("ahead = 0", "ahead is 0, and has to be 1 to 5000"),
    ],
)
def test_a_preempt_that_cant_be_is_refused(tee, more, line):
    path = tee / "tee.map.toml"
    path.write_text(path.read_text() + PREEMPT + more + "\n")
    assert line in refused(tee)


@needs_sumo
def test_a_map_for_another_network_is_refused(tee):
    shutil.copy(STREET / "street.map.toml", tee / "tee.map.toml")
    assert "a map of another network?" in refused(tee)


@needs_sumo
def test_a_question_left_in_a_map_is_refused(tee):
    change(tee / "tee.map.toml", 'name = "EBT"\nphase = 2', 'name = "EBT"\nphase = "?"')
    assert "still to be said" in refused(tee)


@needs_sumo
def test_an_unknown_name_in_a_map_is_refused(tee):
    change(tee / "tee.map.toml", "cabinet = 1", "cabinet = 1\ncabinets = 1")
    assert "cabinets is unknown; did you mean cabinet?" in refused(tee)


@needs_sumo
def test_a_session_that_is_refused_is_told_by_the_programs_line(tee):
    change(tee / "tee.json", "{}", '{"cells": [["phase", 2, 8, 10]]}')
    assert refused(tee) == "cosim: scenario: cabinet 1 breaks rule 10 at row 2"
