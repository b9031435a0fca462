"""The safety net of maps: a phase that is wrong in one place is refused with the names of both movements, and nothing
that the user says of phases lets a movement give way. The maps are right ones with one change each."""

import contextlib
import io
import pathlib
import shutil
import tomllib

import pytest

from streettools.cosim import checks, network
from streettools.cosim.mapping import read_map
from streettools.shared.fault import Fault

from .conftest import STREET, TEE, Ran, change, tools

STD8 = {"cabinets": [{}] * 4}


def refusal(path: pathlib.Path, net: pathlib.Path, scenario: dict) -> str:
    """Returns the line with which a map is refused, nothing where it is taken."""
    try:
        checks.check(read_map(path), network.read(net), scenario)
    except Fault as fault:
        return str(fault)
    return ""


def mapped(*words: object) -> Ran:
    """Runs `arterial cosim map` within the tests' own process."""
    err = io.StringIO()
    with contextlib.redirect_stderr(err):
        status = tools.run(["cosim", "map", *map(str, words)])
    return Ran(status, "", err.getvalue().splitlines())


def phase(name: str, old: int, new: int) -> tuple[str, str]:
    """Returns the change of a movement's phase in a map."""
    return f'name = "{name}"\nphase = {old}\n', f'name = "{name}"\nphase = {new}\n'


WRONG = [
    # a change of the first signal's map of the street of four, and the two movements that then cross
    (phase("NBT", 8, 2), ("NBT", "EBT")),
    (phase("SBT", 4, 6), ("SBT", "WBT")),
    (phase("EBT", 2, 4), ("EBT", "SBT")),
    (phase("EBL", 5, 2), ("EBL", "WBT")),
    (phase("NBL", 3, 8), ("NBL", "SBT")),
    (phase("SBL", 7, 1), ("SBL", "WB")),
    (phase("WBR", 6, 3), ("WBR", "NBT")),
    (phase("NBR", 8, 6), ("NBR", "EBT")),
    (phase("ped E", 8, 2), ("ped E", "EBT")),
    (phase("ped S", 2, 4), ("ped S", "SBT")),
    (('name = "NBL"\nphase = 3\n', 'name = "NBL"\nphase = 3\npermissive = 2\n'), ("NBL", "EBT")),
    (('yields = ["ped S"]\n', ""), ("EBR", "ped S")),
]


@pytest.mark.parametrize(("changed", "names"), WRONG, ids=["-".join(it[1]).replace(" ", "") for it in WRONG])
def test_a_map_that_is_wrong_in_one_place_is_refused_with_both_names(tmp_path, changed, names):
    path = tmp_path / "map.toml"
    shutil.copy(STREET / "street.map.toml", path)
    assert refusal(path, STREET / "street.net.xml", STD8) == ""
    change(path, *changed)
    line = refusal(path, STREET / "street.net.xml", STD8)
    assert "signal c0: " in line and " cross, and " in line and all(name in line for name in names), line


def test_phases_that_the_scenario_lets_be_on_at_once_are_refused_though_they_usually_are_not(tmp_path):
    """Phases 2 and 8 are on different sides of the barrier; here the cabinet's tables name them as concurrent."""
    path = STREET / "street.map.toml"
    cells = [["phase", 2, 23, "050608"], ["phase", 8, 23, "020304"]]
    line = refusal(path, STREET / "street.net.xml", {"cabinets": [{"cells": cells}, {}, {}, {}]})
    assert "cross, and phases" in line and "may be on at once" in line


def test_yields_names_those_to_whom_a_movement_gives_way_and_nobody_else(tmp_path):
    """The right turn gives way to the crossing that it names; on the phase of the straight way from its left it is
    refused, and with `true` it may be meant."""
    path = tmp_path / "map.toml"
    shutil.copy(TEE / "tee.map.toml", path)
    change(path, 'name = "NBR"\nphase = 8', 'name = "NBR"\nphase = 2')
    line = refusal(path, TEE / "tee.net.xml", {"cabinets": [{}]})
    assert "NBR" in line and "EBT" in line and 'yields = ["EBT"] of NBR lets it give way' in line
    change(path, 'phase = 2\nyields = ["ped E"]', "phase = 2\nyields = true")
    assert "NBR" not in refusal(path, TEE / "tee.net.xml", {"cabinets": [{}]})


@pytest.mark.parametrize(
    ("changed", "line"),
    [
        (('yields = ["ped S"]', 'yields = ["ped Z"]'), "EBR yields to ped Z, which is not a movement of this signal"),
        (('yields = ["ped S"]', "yields = 1"), "yields has to be true or false"),
        (("walk = true", 'walk = true\nyields = ["EBT"]'), "yields is of vehicles"),
    ],
)
def test_a_yields_that_cant_be_is_refused(tmp_path, changed, line):
    path = tmp_path / "map.toml"
    shutil.copy(TEE / "tee.map.toml", path)
    change(path, *changed)
    assert line in refusal(path, TEE / "tee.net.xml", {"cabinets": [{}]})


SAID = [
    # what the user says of a phase, and the two movements that then cross
    ("c0 NBT=2", ("NBT", "EBT")),
    ("c0 EBT=4", ("EBT", "SBT")),
    ("c0 EBL=2", ("EBL", "WBT")),
    ("c0 NBR=6", ("NBR", "EBT")),
    ("c0 ped E=2", ("ped E", "EBT")),
    ("c0 EBR=2", ("EBR", "ped S")),
]


@pytest.mark.parametrize(("said", "names"), SAID, ids=[it[0].replace(" ", "") for it in SAID])
def test_a_phase_that_the_user_says_never_lets_a_movement_yield(tmp_path, said, names):
    """The map is a question with both names; no movement has a `yields` that the map without the answer hasn't, and a
    run of it is refused."""
    out = tmp_path / "map.toml"
    words = (STREET / "street.net.xml", "--main", "E", "-o")
    assert mapped(*words, tmp_path / "right.toml").status == 0
    ran = mapped(*words, out, "--phase", said)
    assert ran.status == 2
    assert any(all(name in line for name in names) and " cross, and " in line for line in ran.said), ran.said
    right, made = (tomllib.loads(it.read_text())["signal"][0]["movement"] for it in (tmp_path / "right.toml", out))
    yields = {it["name"]: set(it.get("yields", ())) for it in right}
    assert all(set(it.get("yields", ())) <= yields[it["name"]] for it in made)
    line = refusal(out, STREET / "street.net.xml", STD8)
    assert " cross, and " in line


def test_a_movement_yields_by_the_users_own_word(tmp_path):
    out = tmp_path / "map.toml"
    words = (STREET / "street.net.xml", "--main", "E", "--phase", "c0 EBR=2", "-o", out)
    assert mapped(*words, "--yields", "c0 EBR").status == 0
    assert refusal(out, STREET / "street.net.xml", STD8) == ""
    ran = mapped(*words, "--yields", "c0 EBZ")
    assert ran.status == 2 and ran.said == ["cosim: --yields: signal c0 has no movement EBZ"]
