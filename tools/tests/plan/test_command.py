"""The command as it is called: what it writes, one line for what it can't take, and its exit statuses."""

import json
import os
import subprocess

import pytest

from .conftest import SECONDS, TOP, plan, said

SHEET = TOP / "scenarios/sheets/main-street.toml"
BAD = '[[intersection]]\nname = "Main & 3rd"\n[intersection.pattern.1]\ncycle = 80\n'


def test_a_sheet_goes_to_a_scenario_and_back_with_its_names(tmp_path):
    """The scenario and the names are written; from these two comes the same scenario again."""
    out = tmp_path / "street.json"
    ran = plan("scenario", SHEET, "-o", out)
    assert ran.returncode == 0 and b"phase 8 is added next to phase 4" in ran.stderr
    assert json.loads((tmp_path / "street.names.json").read_text())["intersections"][1]["partners"] == [8]
    back = plan("sheet", out)
    assert (
        b'name = "Main St & Station Sq"' in back.stdout
        and b'"- | -"' not in back.stdout
        and b'"6   | -",' in back.stdout
    )
    (tmp_path / "again.toml").write_bytes(back.stdout)
    assert plan("scenario", tmp_path / "again.toml").stdout == out.read_bytes()


def test_the_sheet_of_four_intersections_is_run(program):
    """The program takes the scenario of the sheet, and the field file with its detectors."""
    assert said(program, plan("scenario", SHEET).stdout) == ""
    value = json.loads(plan("scenario", "--field", SHEET).stdout)
    assert [it["phase"] for it in value["bank"]] == [4, 1] and set(value) == {"scenario", "bank"}


def test_a_check_tells_errors_and_ends_with_status_2(tmp_path):
    """In words, as JSON, and with the least change of splits, which mends the plan."""
    path = tmp_path / "street.toml"
    path.write_text(BAD)
    ran = plan("check", path)
    assert (
        ran.returncode == 2 and b"Main & 3rd: error, rule 17: pattern 1 (split 1): the splits of ring 1" in ran.stdout
    )
    found = json.loads(plan("check", "--json", path).stdout)
    assert found[0]["rule"] == 17 and found[0]["line"] == "scenario: cabinet 1 breaks rule 17 at row 1"
    ran = plan("check", "--fix", path, "-o", tmp_path / "mended.toml")
    assert ran.returncode == 2 and b"20 s of change, the smallest that is enough" in ran.stdout
    assert plan("check", tmp_path / "mended.toml").returncode == 0


def test_refusals_can_be_piped_into_explain(tmp_path):
    """Lines on standard input, each in words."""
    path = tmp_path / "street.json"
    path.write_bytes(b'{"version":1,"rounds":1,"ticks":1,"cabinets":[{"cells":[["phase",2,8,29]]}]}')
    ran = plan("explain", "-", path, given=b"arterial: not proved\nscenario: cabinet 1 breaks rule 10 at row 2\n")
    assert ran.returncode == 0 and b"phase 2 has a yellow change of 2.9 s" in ran.stdout
    assert ran.stderr == b"arterial: not proved\n"


def test_a_workbook_is_a_sheet(tmp_path):
    """Written, checked, and turned into the same scenario."""
    path = tmp_path / "street.xlsx"
    assert plan("sheet", SHEET, "-o", path).returncode == 0
    assert plan("scenario", path).stdout == plan("scenario", SHEET).stdout


@pytest.mark.parametrize(
    ("words", "status"),
    [
        (["check", "nowhere.toml"], 1),
        (["check", "folder.toml"], 1),
        (["sheet", "bad.json"], 2),
        (["scenario", "bad.toml"], 2),
        (["check", "bad.xlsx"], 2),
        (["from", "utdf", "bad.json"], 2),
        (["from", "walk", "bad.json"], 2),
        (["from", "live", "192.0.2.1"], 2),
        (["from", "live", "127.0.0.1:x"], 2),
        (["explain", "what is this", "good.json"], 2),
        (["loads", "good.json", "two.json"], 2),
        (["sheet", "good.json", "--names", "bad.json"], 2),
        (["sheet", "good.json", "-o", "nowhere/x.toml"], 1),
        (["check"], 2),
        (["mend", "good.json"], 2),
    ],
)
def test_what_can_not_be_taken_gets_a_line_and_a_status(words, status, tmp_path):
    """Files that aren't there, of another kind, damaged; words that are none. Never a traceback."""
    (tmp_path / "bad.json").write_bytes(b'{"version": 1,,}')
    (tmp_path / "bad.toml").write_bytes(b"[[intersection]\n\xff")
    (tmp_path / "bad.xlsx").write_bytes(b"PK\x03\x04 no workbook")
    good = '{"version":1,"rounds":1,"ticks":1,"cabinets":[%s]}'
    (tmp_path / "good.json").write_text(good % "{}")
    (tmp_path / "two.json").write_text(good % "{},{}")
    (tmp_path / "folder.toml").mkdir()
    names = {it.name for it in tmp_path.iterdir()}
    ran = plan(*(tmp_path / it if it in names or it.startswith("nowhere") else it for it in words))
    assert ran.returncode == status and b"Traceback" not in ran.stderr
    assert ran.stderr or words[-1].endswith(".xlsx")


def test_loads_are_written_for_a_scenario_or_said_in_words(tmp_path):
    """The cells that differ, in the round that is said; or what a device would get. Nothing is asked of it."""
    old, new = tmp_path / "old.json", tmp_path / "new.json"
    old.write_text('{"version":1,"rounds":9,"ticks":10,"cabinets":[{}]}')
    new.write_text('{"version":1,"rounds":9,"ticks":10,"cabinets":[{"cells":[["phase",2,8,43]]}]}')
    assert json.loads(plan("loads", old, new, "--round", "3").stdout) == {
        "loads": [{"round": 3, "cabinet": 1, "cells": [["phase", 2, 8, 43]]}]
    }
    ran = plan("loads", old, new, "--sets", "127.0.0.1:10161")
    assert ran.returncode == 0 and ran.stdout.splitlines() == [
        b"intersection 1 (cabinet 1) at 127.0.0.1:10161: 1 download, 1 value to change",
        b"  phase 2, yellow: 4.0 to 4.3",
        b"nothing is set: --send reads each device, and then sets it",
    ]


WITH_COMMENTS = """\
# Kept by the city; ask before you change it.
title = "Main"
[[intersection]]
name = "Main & 1st"   # counted in May

[intersection.phase]
"1 3 5 7" = {}
"2 6" = {}
"4 8" = {}

[intersection.pattern.1]
cycle = 90
# ring 1 comes to 95 s: a slip
splits = {1 = 20, 2 = 30, 3 = 15, 4 = 30, 5 = 15, 6 = 30, 7 = 15, 8 = 30}  # from the sheet
"""


@pytest.mark.parametrize("place", ["pattern", "split"])
def test_a_mended_sheet_keeps_its_comments_and_all_but_the_splits(tmp_path, place):
    pytest.importorskip("tomlkit", reason="python3-tomlkit is missing")
    text = WITH_COMMENTS
    if place == "split":
        text = text.replace("# ring 1", "[intersection.split.1]\n# ring 1")
    path, aim = tmp_path / "given.toml", tmp_path / "mended.toml"
    path.write_text(text)
    ran = plan("check", "--fix", path, "-o", aim)
    assert (ran.returncode, ran.stderr) == (2, b"")
    before, after = text.splitlines(), aim.read_text().splitlines()
    other = [(one, new) for one, new in zip(before, after, strict=True) if one != new]
    # 5 s too much in ring 1: the least change takes them from one phase
    assert len(other) == 1 and other[0][1].startswith("splits = {") and other[0][1].endswith("}  # from the sheet")
    assert plan("check", aim).returncode == 0


def test_a_split_that_is_not_said_in_the_sheet_is_mended_in_a_sheet_that_is_written_anew(tmp_path):
    path, aim = tmp_path / "given.toml", tmp_path / "mended.toml"
    # split 1 of the standard tables comes to 90 s
    path.write_text(WITH_COMMENTS.split("[intersection.pattern.1]")[0] + "[intersection.pattern.1]\ncycle = 95\n")
    ran = plan("check", "--fix", path, "-o", aim)
    assert ran.returncode == 2 and b"comments are left out" in ran.stderr
    assert plan("check", aim).returncode == 0


def test_a_split_of_several_phases_is_said_once_and_mended_in_its_place(tmp_path):
    pytest.importorskip("tomlkit", reason="python3-tomlkit is missing")
    path, aim = tmp_path / "given.toml", tmp_path / "mended.toml"
    line = 'splits = {"1 5" = 20, "2, 6" = 30, "3 7" = 15, "4 8" = 30}'
    path.write_text(WITH_COMMENTS.split("splits = ")[0] + line + "\n")
    ran = plan("check", "--fix", path, "-o", aim)
    # both rings come to 95 s in a cycle of 90: 5 s less in each
    assert ran.returncode == 2 and b"10 s of change, the smallest that is enough" in ran.stdout and ran.stderr == b""
    assert aim.read_text().startswith("# Kept by the city") and plan("check", aim).returncode == 0
    path.write_text(path.read_text().replace('"3 7" = 15', '"3 7" = 15, 3 = 14'))
    ran = plan("check", path)
    assert ran.returncode == 2 and b"splits, 3: error: this number is a duplicate" in ran.stdout


@pytest.mark.parametrize("text", ["clock = 08:50\n", "schedule = [\n  {at = 7:00, pattern = 1},\n]\n"])
def test_a_time_of_day_without_seconds_is_told(tmp_path, text):
    (tmp_path / "given.toml").write_text(text)
    ran = plan("check", tmp_path / "given.toml")
    assert ran.returncode == 2 and b"error: a time of day has " in ran.stdout
    assert b" its seconds too, as 07:30:00 (" in ran.stdout


HIDDEN = ["\x1b[2J", "\x1b]0;title\x07", "\u202e", "\0"]
"""What a terminal would do something with, or doesn't show: it is cleared, it gets a title, the text turns round."""


@pytest.mark.parametrize("hidden", HIDDEN, ids=["clear", "title", "turned", "nul"])
def test_names_with_characters_that_are_not_shown_are_refused(tmp_path, hidden):
    """In a sheet, and in the file with the names of a scenario; nothing of them reaches the terminal."""
    sheet, scenario = tmp_path / "street.toml", tmp_path / "street.json"
    sheet.write_text(f"[[intersection]]\nname = {json.dumps('Main' + hidden)}\n")
    scenario.write_text('{"version":1,"rounds":9,"ticks":10,"cabinets":[{}]}')
    (tmp_path / "street.names.json").write_text(json.dumps({"intersections": [{"name": "Main" + hidden}]}))
    for path in (sheet, scenario):
        ran = plan("check", path)
        assert ran.returncode == 2 and b"has characters that can't be shown" in ran.stdout + ran.stderr
        assert hidden.encode() not in ran.stdout + ran.stderr


def test_a_name_of_several_lines_is_one_line(tmp_path):
    """As a workbook's cell may have it."""
    (tmp_path / "street.toml").write_text('[[intersection]]\nname = "Main St\\n  at 3rd Ave"\n')
    ran = plan("scenario", tmp_path / "street.toml", "-o", tmp_path / "street.json")
    assert ran.returncode == 0, ran.stderr
    known = json.loads((tmp_path / "street.names.json").read_text())
    assert known["intersections"][0]["name"] == "Main St at 3rd Ave"


def test_plan_runs_without_a_bar_of_progress(tmp_path):
    """Python's tqdm is only for the bar."""
    (tmp_path / "tqdm.py").write_text("raise ModuleNotFoundError('No module named tqdm', name='tqdm')\n")
    (tmp_path / "street.toml").write_text('[[intersection]]\nname = "Main St"\n')
    command = ["/usr/bin/python3", "-B", "-m", "streettools", "plan", "check", tmp_path / "street.toml"]
    path = f"{tmp_path}:{TOP / 'tools'}"
    ran = subprocess.run(command, capture_output=True, timeout=SECONDS, env={**os.environ, "PYTHONPATH": path})
    assert ran.returncode == 0 and ran.stderr == b""


def test_a_scenario_that_will_be_refused_says_so():
    """The split of phase 3 is 18 s, and needs 28.5 s (rule 18)."""
    ran = plan("scenario", TOP / "scenarios/sheets/mistake.toml")
    assert ran.returncode == 0 and ran.stdout.startswith(b"{")
    assert b"plan: the program will refuse this scenario: `./arterial plan check` says why\n" in ran.stderr
    assert b"will refuse" not in plan("scenario", TOP / "scenarios/sheets/main-street.toml").stderr
