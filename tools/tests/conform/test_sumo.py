"""SUMO's NEMA controller as the device: what it does otherwise is found, and what it can't do is reported."""

import pathlib
import re
import shutil
import subprocess
import sys

import pytest

from .conftest import TOP, conform, reported

pytestmark = pytest.mark.skipif(shutil.which("sumo") is None, reason="no SUMO here")
AGENT = pathlib.Path(__file__).with_name("nema_agent.py")
SHEET = TOP / "scenarios/one-cabinet.json"
SUBJECTS = ("Start-up", "Preempts", "Recalls", "Coordination", "Dual entry", "Staged download")


@pytest.fixture(scope="module")
def where():
    """The address of the agent."""
    with subprocess.Popen([sys.executable, "-B", AGENT], stdout=subprocess.PIPE, text=True) as agent:
        said = next((it for line in agent.stdout if (it := re.search(r"answers at (\S+)", line))), None)
        assert said, "the agent has ended"
        yield said[1]
        agent.terminate()


@pytest.fixture(scope="module")
def report(where, tmp_path_factory):
    """The report of some subjects."""
    only = [word for it in SUBJECTS for word in ("--only", it)]
    found, status = reported(where, "--sheet", SHEET, *only, folder=tmp_path_factory.mktemp("sumo"))
    assert status == 2
    return found


def test_what_its_tables_lack_is_asked_of_a_sheet(where, report):
    done = conform(where, "--speed", "step")
    assert done.returncode == 2 and done.stderr.count("\n") == 1
    assert re.search(r"the device doesn't have coordCorrectionMode, .*: --sheet FILE says what they are", done.stderr)
    assert any(it.startswith(f"from {SHEET}: coordCorrectionMode, ") for it in report["notes"])


def test_it_has_no_start_up(report):
    """SUMO's logic begins with green; the proved cabinet is red for 6 s."""
    (it,) = [it for it in report["tests"] if it["name"] == "start-up-all-red"]
    assert it["outcome"] == "differ"
    assert re.fullmatch(r"phase \d turns to green at 0\.[0-3] s; expected .*", it["words"][0])


def test_what_it_cannot_do_is_reported_in_one_line_each(report):
    words = {it["name"]: it["words"] for it in report["tests"] if it["outcome"] == "can't tell"}
    assert words["dual-entry"] == ["the device refuses to set phaseControlGroupVehCall.1 (noSuchName)"]
    needs = ["the device doesn't have dbCreateTransaction.0, by which the tables of the test are loaded"]
    assert words["preempt-delay"] == words["minimum-recall"] == needs
    assert words["coordination-yield"] == ["the device can't do this test: pattern 1 isn't defined"]
    assert "it doesn't have phaseStatusGroupPhaseOns: red clearance isn't distinguished from red" in report["notes"]
    assert all(len(it) == 1 for it in words.values())
