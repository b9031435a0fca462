"""Breaches in words: what each sentence says of a log that was made by hand; the summary, JSON, and the page."""

import json
import re

import pytest

from .conftest import TOP

SHEET = """
title = "Riverside"

[[intersection]]
name = "River Rd & Oak Ave"
[intersection.phase]
4 = {yellow = 3.5, red_clear = 1}

[[intersection]]
name = "River Rd & Elm St"
"""
HEAD = "TimeStamp,DeviceId,EventId,Parameter\n"
GREEN, YELLOW, CLEAR, RED = (1,), (7, 8), (9, 10), (11, 12)


@pytest.fixture
def judged(log, tmp_path):
    """Judges rows (time, device, codes, parameter), and returns the output."""
    sheet = tmp_path / "river.toml"
    sheet.write_text(SHEET)

    def done(rows, *words, status=8):
        path = tmp_path / "day.csv"
        lines = [f"2026-11-27 {time},{device},{code},{it}\n" for time, device, codes, it in rows for code in codes]
        path.write_text(HEAD + "".join(lines))
        return log("judge", path, "--sheet", sheet, *words, status=status)

    return done


def shown(phase, green, yellow, clear, red, device=1):
    """Returns the rows of a phase: when it begins each colour."""
    times = (green, yellow, clear, red)
    return [(it, device, codes, phase) for it, codes in zip(times, (GREEN, YELLOW, CLEAR, RED)) if it]


def first(answer):
    """Returns the first line of an output."""
    return answer.out.splitlines()[0]


CASES = [
    (
        "a yellow that is too short",
        shown(4, "07:13:30.0", "07:14:00.0", "07:14:03.2", "07:14:04.2"),
        "River Rd & Oak Ave, 2026-11-27 07:14:03.2: phase 4 yellow lasted 3.2 s; the plan has 3.5 s",
    ),
    (
        "a red clearance that is too long",
        shown(4, "07:13:30.0", "07:14:00.0", "07:14:03.5", "07:14:05.0"),
        "River Rd & Oak Ave, 2026-11-27 07:14:05.0: phase 4 red clearance lasted 1.5 s; the plan has 1.0 s",
    ),
    (
        "a green that is too short",
        shown(2, "07:13:30.0", "07:13:36.0", "07:13:40.0", "07:13:41.5", device=2),
        "River Rd & Elm St, 2026-11-27 07:13:36.0: phase 2 green lasted 6.0 s; the plan has at least 10.0 s",
    ),
    (
        "conflicting greens",
        [*shown(2, "07:13:30.0", None, None, None), *shown(4, "07:13:50.0", None, None, None)],
        "River Rd & Oak Ave, 2026-11-27 07:13:50.0: phase 2 green and phase 4 green together; the plan has them in "
        "conflict",
    ),
    (
        "a phase that the plan doesn't enable",
        [*shown(2, "07:13:30.0", None, None, None), *shown(9, "07:13:50.0", None, None, None)],
        "River Rd & Oak Ave, 2026-11-27 07:13:50.0: phase 9 shows green; the plan doesn't enable it",
    ),
    (
        "a green that turns red",
        [("07:13:30.0", 1, GREEN, 2), ("07:13:50.0", 1, (7, 12), 2)],
        "River Rd & Oak Ave, 2026-11-27 07:13:50.0: phase 2 went from green to red",
    ),
    (
        "a walk that is too short",
        [("07:13:30.0", 1, (1, 21), 2), ("07:13:35.0", 1, (22,), 2)],
        "River Rd & Oak Ave, 2026-11-27 07:13:35.0: phase 2 walk lasted 5.0 s; the plan has 7.0 s",
    ),
    (
        "a pedestrian clearance that is too short",
        [("07:13:30.0", 1, (1, 21), 2), ("07:13:37.0", 1, (22,), 2), ("07:13:45.0", 1, (23,), 2)],
        "River Rd & Oak Ave, 2026-11-27 07:13:45.0: phase 2 pedestrian clearance lasted 8.0 s; the plan has 12.0 s",
    ),
    (
        "a walk that goes on after the green",
        [("07:13:30.0", 1, GREEN, 2), ("07:13:45.0", 1, (21,), 2), ("07:13:48.0", 1, YELLOW, 2),
         ("07:13:52.0", 1, (9, 10, 22), 2), ("07:13:53.5", 1, (11, 12), 2), ("07:14:04.0", 1, (23,), 2)],
        "River Rd & Oak Ave, 2026-11-27 07:13:48.0: phase 2 shows walk with yellow",
    ),
    (
        "a yellow that doesn't end",
        [*shown(2, "07:13:30.0", "07:13:50.0", None, None), ("07:14:00.0", 1, (131,), 1), ("07:14:00.0", 2, (1,), 2)],
        "River Rd & Oak Ave, 2026-11-27 07:13:50.0: phase 2 yellow has not ended where the rows end; the plan has "
        "4.0 s",
    ),
]  # fmt: skip


@pytest.mark.parametrize(("rows", "due"), [it[1:] for it in CASES], ids=[it[0] for it in CASES])
def test_a_breach_is_said_with_its_place_and_time(judged, rows, due):
    assert first(judged(rows, "--tolerance", "0")) == due


def test_a_good_log_has_no_breach(judged):
    rows = shown(4, "07:13:30.0", "07:14:00.0", "07:14:03.5", "07:14:04.5")
    assert first(judged(rows, status=0)) == "7 rows of 1 cabinet, judged to within 0.1 s: no breach"


def test_lengths_are_judged_to_within_the_tolerance(judged):
    rows = shown(4, "07:13:30.0", "07:14:00.0", "07:14:03.4", "07:14:04.4")
    assert "no breach" in first(judged(rows, status=0))
    assert "lasted 3.4 s" in first(judged(rows, "--tolerance", "0"))


def test_a_log_is_not_judged_for_what_it_does_not_show(judged):
    """It begins in a yellow, and its first row is the end of that."""
    rows = [("07:14:00.0", 1, (9, 10), 4), ("07:14:01.0", 1, (11, 12), 4), ("07:14:09.0", 1, GREEN, 2)]
    assert "no breach" in first(judged(rows, status=0))


def test_kinds_are_counted(judged):
    rows = [
        *shown(4, "07:13:30.0", "07:14:00.0", "07:14:03.0", "07:14:04.0"),
        *shown(4, "07:15:30.0", "07:16:00.0", "07:16:03.0", "07:16:04.0"),
        *shown(2, "07:17:00.0", "07:17:05.0", "07:17:09.0", "07:17:10.5"),
    ]
    lines = judged(rows).out.splitlines()
    assert lines[3:] == [
        "21 rows of 1 cabinet, judged to within 0.1 s: 3 breaches",
        "       2  clearance: yellow change or red clearance of a wrong length",
        "       1  short green: greens shorter than their minimum",
    ]


def test_json_has_all(judged, tmp_path):
    rows = shown(4, "07:13:30.0", "07:14:00.0", "07:14:03.2", "07:14:04.2")
    judged(rows, "--json", "-o", tmp_path / "out.json")
    found = json.loads((tmp_path / "out.json").read_text())
    assert found["counts"] == {"clearance": 1} and found["cabinets"] == {"1": "River Rd & Oak Ave"}
    (breach,) = found["breaches"]
    assert (breach["phase"], breach["time"], breach["clause"]) == (4, "07:14:03.2", "clearance")


def test_the_page_has_a_mark_for_each_breach(judged, tmp_path):
    pytest.importorskip("streettools.look.page.writing")
    from streettools.look.page import writing

    if not writing.LIBRARY.exists():
        pytest.skip("node-d3 is not installed")
    rows = shown(4, "07:13:30.0", "07:14:00.0", "07:14:03.2", "07:14:04.2")
    judged(rows, "--page", tmp_path / "day.html")
    text = (tmp_path / "day.html").read_text()
    head = json.loads(re.search(r'<script id="head" type="application/json">(.*?)</script>', text, re.S)[1])
    assert head["title"] == "Riverside, log of 2026-11-27" and head["judged"] and head["start"] == 26009.0
    assert head["texts"]["words"] == ["phase 4 yellow lasted 3.2 s; the plan has 3.5 s"]
    assert head["counts"]["marks"] == [1, 0]


def test_a_program_without_the_command_is_refused(log, tmp_path):
    path = tmp_path / "day.csv"
    path.write_text("2026-11-27 07:00:01,1,1,2\n")
    sheet = TOP / "scenarios/one-cabinet.json"
    said = log("judge", path, "--sheet", sheet, "--program", "/bin/true", status=2).err
    assert "/usr/bin/true has no command judge" in said or "/bin/true has no command judge" in said
