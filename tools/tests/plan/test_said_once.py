"""What stands in a sheet is taken from there: by `run`, `look` and `cosim queues`, which are given it in place of a
scenario or of a file of names."""

import os
import subprocess

import pytest

from .conftest import SECONDS, TOP, plan

SHEET = TOP / "scenarios/sheets/main-street.toml"
LAUNCH = '#!/bin/sh\ncheckout= program={} tools={}\n. "$tools/launch.sh"\n'


@pytest.fixture
def arterial(program, tmp_path):
    """Runs the launcher as it is installed, with the program of the tests."""
    launcher = tmp_path / "arterial"
    launcher.write_text(LAUNCH.format(program, TOP / "tools"))
    launcher.chmod(0o755)

    def run(*words):
        return subprocess.run([launcher, *map(str, words)], capture_output=True, timeout=SECONDS, cwd=tmp_path)

    return run


@pytest.fixture
def short(tmp_path):
    """The sheet of Main Street, run for a minute."""
    path = tmp_path / "short.toml"
    path.write_text(SHEET.read_text().replace("rounds = 900", "rounds = 60"))
    return path


def tool(*words):
    """Runs a tool, as a process of its own."""
    return subprocess.run(
        ["/usr/bin/python3", "-B", "-m", "streettools", *map(str, words)], capture_output=True, timeout=SECONDS,
        env={**os.environ, "PYTHONPATH": str(TOP / "tools")},
    )  # fmt: skip


def test_run_takes_a_sheet_and_says_so(arterial, short, tmp_path):
    """The trace is that of the scenario that `plan scenario` writes; a sheet with faults ends with its lines."""
    (tmp_path / "street.json").write_bytes(plan("scenario", short).stdout)
    of_sheet, of_scenario = arterial("run", short), arterial("run", tmp_path / "street.json")
    assert of_sheet.returncode == of_scenario.returncode == 0
    assert of_sheet.stdout == of_scenario.stdout and of_sheet.stdout.endswith(b"\nZ 60\n")
    assert b"short.toml is a timing sheet: the scenario that it makes is run" in of_sheet.stderr
    assert b"no detector calls in this run: arterial cosim queues brings vehicles; recall = " in of_sheet.stderr
    short.write_text(short.read_text() + '\n[events]\ninputs = [{round = 2, cabinet = 1, veh = 4, on = true}]\n')
    assert b"no detector calls" not in arterial("run", short).stderr
    (tmp_path / "bad.toml").write_text("[[intersection]]\ncolour = 1\n")
    bad = arterial("run", tmp_path / "bad.toml")
    assert bad.returncode == 2 and bad.stdout == b"" and b"colour: error: is unknown" in bad.stderr


def test_look_takes_names_start_and_travel_from_the_sheet(arterial, short, tmp_path):
    """The sheet's clock is 6:29, its travel 20 s three times: the same page as with these words."""
    pytest.importorskip("matplotlib")
    trace = tmp_path / "trace"
    trace.write_bytes(arterial("run", short).stdout)
    assert plan("scenario", short, "-o", tmp_path / "street.json").returncode == 0
    pages = []
    for words in (
        ["--names", short],
        ["--names", tmp_path / "street.names.json", "--start", "06:29:00", "--travel", "20,20,20"],
    ):
        ran = tool("look", "page", "--no-check", *words, "-o", tmp_path / "page.html", trace)
        assert ran.returncode == 0, ran.stderr
        pages.append((tmp_path / "page.html").read_bytes())
    assert pages[0] == pages[1]


def test_queues_take_a_sheet_and_its_partners_are_idle(program, tmp_path):
    """A T of which phase 8 is entered by the sheet: it has no traffic, and needn't be listed."""
    sheet, volumes = tmp_path / "t.toml", tmp_path / "volumes.toml"
    sheet.write_text('[[intersection]]\nrings = ["1 2 | 4", "6 | -"]\n')
    rows = (("WBL", 1), ("EBT", 2), ("WBT", 6), ("NBL", 4))
    movements = ",".join(f'{{name = "{name}", phase = {phase}, volume = 100}}' for name, phase in rows)
    volumes.write_text(f"[[cabinet]]\nnumber = 1\nmovements = [{movements}]\n")
    ran = tool("cosim", "queues", volumes, "--scenario", sheet, "--seconds", 60, "--program", program)
    assert ran.returncode == 0 and b"WBL" in ran.stdout, ran.stderr


def test_a_sheet_that_is_refused_says_which_command_tells_why(arterial):
    """Rule 18, as in docs/PLANS.md."""
    ran = arterial("run", TOP / "scenarios/sheets/mistake.toml")
    assert ran.returncode == 2 and b"scenario: cabinet 1 breaks rule 18 at row 2\n" in ran.stderr
    assert ran.stderr.endswith(b"mistake.toml says why\n") and b"arterial plan check" in ran.stderr
