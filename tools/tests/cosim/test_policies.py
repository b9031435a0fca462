"""Policies in Python: what they see and ask, in runs with queues and with SUMO, and what is refused of them."""

import json
import pathlib

import pytest

from streettools.cosim.policies import Policy, Street
from streettools.shared.fault import Fault

from .conftest import TOP, cosim, needs_sumo, run_tee

F = b"F 1 60 RGRRRGRRRRRRRRRR DWDDDFDDDDDDDDDD C1 0 0 0"


def policy(path: pathlib.Path, text: str, waiting=lambda cabinet, movement: 0) -> Policy:
    """Returns a policy with this text."""
    (path / "policy.py").write_text(text)
    found = Policy(path / "policy.py", Street(1, waiting))
    found.heard([F])
    return found


def test_a_policy_sees_what_cabinets_show_and_who_waits(tmp_path):
    text = "seen = []\ndef step(s):\n"
    text += "    s.seen = s.second, s.green(1), s.walk(1), s.mode(1), s.waiting(1, 'EBT'), list(s.cabinets)\n"
    found = policy(tmp_path, text, lambda cabinet, movement: 3 if movement == "EBT" else 0)
    assert found.requests(7.0, []) == []
    assert found.street.seen == (7.0, [2, 6], [2], "C1", 3, [1])


def test_a_policy_asks_as_a_session_takes_it(tmp_path):
    """The Set of systemPatternControl.0 (1.3.6.1.4.1.1206.4.2.1.4.14.0) to 5; its octets are worked by RFC 1157."""
    text = "def step(s):\n    s.call(1, 4)\n    s.press(1, 8)\n    s.preempt(1, 3)\n    s.preempt(1, 3, False)\n"
    found = policy(tmp_path, text + "    s.pattern(1, 5)\n").requests(1.0, [])
    assert found[:5] == [b"veh 1 4 on", b"veh 1 4 off", b"ped 1 8", b"preempt 1 3 on", b"preempt 1 3 off"]
    octets = found[5].removeprefix(b"frame 1 poll ").decode()
    assert octets.endswith("3012" + "060d" + "2b060104018936040201040e00" + "020105")


def test_a_call_leaves_a_detector_alone_that_is_on(tmp_path):
    found = policy(tmp_path, "def step(s):\n    s.call(1, 4)\n")
    assert found.requests(1.0, [b"veh 1 4 on"]) == []
    assert found.requests(2.0, []) == []
    assert found.requests(3.0, [b"veh 1 4 off"]) == [b"veh 1 4 on", b"veh 1 4 off"]


@pytest.mark.parametrize(
    ("text", "line"),
    [
        ("def steps(s): pass\n", "has no function step(street)"),
        ("def step(s:\n", "line 1: SyntaxError"),
        ("import nothing_of_this_name\n", "line 1: ModuleNotFoundError"),
        ("def step(s):\n    1 / 0\n", "line 2: ZeroDivisionError: division by zero"),
        ("def step(s):\n    s.call(2, 1)\n", "line 2: ValueError: there is no cabinet 2"),
        ("def step(s):\n    s.call(1, 17)\n", "line 2: ValueError: phase 17 is not 1 to 16"),
    ],
)
def test_what_a_policy_does_wrong_is_one_line(tmp_path, text, line):
    with pytest.raises(Fault) as told:
        policy(tmp_path, text).requests(1.0, [])
    assert line in str(told.value) and "\n" not in str(told.value)


PRESSES = "def step(street):\n    if street.second == 30:\n        street.preempt(1, 3)\n    if street.second == 50:\n"
PRESSES += "        street.preempt(1, 3, False)\n"
FREES = "def step(street):\n    if street.second == 20:\n        street.pattern(1, 254)\n"


def test_a_policy_drives_a_run_of_queues(tmp_path):
    (tmp_path / "policy.py").write_text(PRESSES)
    words = [TOP / "scenarios/street.volumes.toml", "--scenario", TOP / "scenarios/street.json", "--seconds", 60]
    ran = cosim("queues", *words, "--policy", tmp_path / "policy.py", "-o", tmp_path / "out")
    assert ran.status == 0, ran
    scenario = json.loads((tmp_path / "out/session.trace").read_bytes().split(b"\n", 1)[0][2:])
    told = [(it["round"], it["on"]) for it in scenario["inputs"] if it.get("preempt") == 3]
    assert told == [(31, True), (51, False)]


def test_a_pattern_that_a_policy_commands_is_in_command(tmp_path):
    """The street opens on pattern 1 (C1); 254 is free operation (F)."""
    (tmp_path / "policy.py").write_text(FREES)
    words = [TOP / "scenarios/street.volumes.toml", "--scenario", TOP / "scenarios/street.json", "--seconds", 120]
    assert cosim("queues", *words, "--policy", tmp_path / "policy.py", "-o", tmp_path / "out").status == 0
    rows = [it.split() for it in (tmp_path / "out/session.trace").read_text().splitlines() if it.startswith("F ")]
    modes = {cabinet: [(int(row[2]), row[5]) for row in rows if row[1] == cabinet] for cabinet in ("1", "2")}
    assert any(mode == "C1" for tick, mode in modes["1"] if tick <= 200)
    assert all(mode == "F" for tick, mode in modes["1"] if tick > 200)
    assert any(mode == "C1" for tick, mode in modes["2"] if tick > 200)


@needs_sumo
def test_a_policy_drives_a_run_of_sumo(tee):
    (tee / "policy.py").write_text(PRESSES)
    ran = run_tee(tee, "--policy", tee / "policy.py")
    assert ran.status == 0, ran
    scenario = json.loads((tee / "out/session.trace").read_bytes().split(b"\n", 1)[0][2:])
    told = [(it["round"], it["on"]) for it in scenario["inputs"] if it.get("preempt") == 3]
    assert told == [(30, True), (50, False)]
