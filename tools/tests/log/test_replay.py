"""The traffic of a log as a scenario: the bench does with it what it did when the log was made; and a comparison of a
log with a trace, by numbers that are known from how the log was changed."""

import json
import pathlib
import subprocess

import pytest

from .conftest import TOP, shown

MIDNIGHT = "2026-11-27"


@pytest.fixture
def replayed(log, program, tmp_path):
    """Replays a log, and returns the scenario and its trace."""

    def done(events, sheet, *words):
        path = tmp_path / "again.json"
        log("replay", events, "--sheet", sheet, "-o", path, *words)
        ran = subprocess.run([program, "run"], input=path.read_bytes(), capture_output=True, check=True)
        path.with_suffix(".trace").write_bytes(ran.stdout)
        return json.loads(path.read_text()), path.with_suffix(".trace")

    return done


@pytest.mark.parametrize("name", ["street.json", "detectors.json", "push-button.json", "railroad.json"])
def test_a_log_replayed_gives_the_same_indications(replayed, trace_of, events_of, name):
    """The replay begins at the run's first tick, so that the cabinet also starts up as it did."""
    sheet = TOP / "scenarios" / name
    clock = json.loads(sheet.read_text())["cabinets"][0].get("clock", 0)
    start = f"{clock // 36_000:02d}:{clock // 600 % 60:02d}:{clock // 10 % 60:02d}"
    there = trace_of(name)
    scenario, back = replayed(events_of(there, MIDNIGHT), sheet, "--from", start)
    assert scenario["ticks"] == 1
    last = int(back.read_text().split()[-1])
    for cabinet in range(1, len(scenario["cabinets"]) + 1):
        due = [it for it in shown(there, cabinet) if it[0] <= last]
        assert len(due) > 3 and shown(back, cabinet)[: len(due)] == due


ROWS = """\
2026-11-27 07:00:00.0,1,131,1
2026-11-27 07:00:10.0,1,81,12
2026-11-27 07:00:20.0,1,82,11
2026-11-27 07:00:21.0,1,82,12
2026-11-27 07:00:22.0,1,81,11
2026-11-27 07:00:23.5,1,81,12
2026-11-27 07:00:30.0,1,90,4
2026-11-27 07:00:40.0,1,102,2
2026-11-27 07:00:50.0,1,104,2
2026-11-27 07:00:55.0,1,112,3
2026-11-27 07:01:05.0,1,115,3
2026-11-27 07:01:10.0,1,131,2
2026-11-27 07:01:12.0,1,82,77
2026-11-27 07:01:20.0,1,1,2
"""
SHEET = """
[[intersection]]
name = "River Rd & Oak Ave"
[intersection.detector]
11 = {phase = 4}
12 = {phase = 4}
"""


@pytest.fixture
def made(log, tmp_path):
    """Returns the scenario of rows, and what is said."""
    (tmp_path / "river.toml").write_text(SHEET)
    (tmp_path / "day.csv").write_text(ROWS)

    def done(*words, status=0):
        path = tmp_path / "day.json"
        given = (tmp_path / "day.csv", "--sheet", tmp_path / "river.toml", "-o", path)
        said = log("replay", *given, *words, status=status)
        return (json.loads(path.read_text()) if path.exists() else None), said.err

    return done


def test_each_kind_of_row_arrives_in_its_round(made):
    scenario, said = made("--priority", "3=2")
    assert (scenario["ticks"], scenario["rounds"], scenario["master"]) == (1, 801, {"clock": 252_000})
    assert (scenario["cabinets"][0]["clock"], scenario["cabinets"][0]["pattern"]) == (252_000, 1)
    changes = ((1, True), (101, False), (201, True), (236, False))
    veh = [{"round": number, "cabinet": 1, "veh": 4, "on": on} for number, on in changes]
    others = [
        {"round": 301, "cabinet": 1, "ped": 4}, {"round": 401, "cabinet": 1, "preempt": 2, "on": True},
        {"round": 501, "cabinet": 1, "preempt": 2, "on": False},
    ]  # fmt: skip
    assert scenario["inputs"] == veh + others
    request = {"number": 3, "class": 1, "level": 1, "phase": 2, "arrival": 0, "departure": 100}
    assert scenario["priority"] == [{"round": 551, "cabinet": 1, **request}]
    (frame,) = scenario["frames"]
    assert (frame["round"], frame["stream"]) == (700, "poll") and frame["hex"].endswith("020102")
    assert "rows of detector channels that the plan doesn't have: 1 (the first: channel 77 at 07:01:12.0)" in said


def test_a_priority_request_without_a_phase_is_reported(made):
    scenario, said = made()
    assert "priority" not in scenario
    assert "rows that have no place in a scenario: 1 (the first: priority request 3 at 07:00:55.0)" in said


def test_a_span_can_be_chosen(made):
    scenario, _ = made("--from", "07:00:30", "--to", "07:01:00")
    assert (scenario["rounds"], scenario["cabinets"][0]["clock"]) == (300, 252_300)
    assert [it["round"] for it in scenario["inputs"]] == [1, 101, 201]
    said = made("--from", "09:00", status=2)[1]
    assert "the log has no rows in that time: it is from 07:00:00.0 to 07:01:20.1" in said


def test_names_are_written_next_to_the_scenario(made, tmp_path):
    made()
    names = json.loads((tmp_path / "day.names.json").read_text())
    assert names["intersections"][0]["name"] == "River Rd & Oak Ave"


def compared(log, events, trace, sheet, *words):
    """Returns the comparison as JSON."""
    return json.loads(log("compare", events, trace, "--sheet", sheet, "--json", *words).out)


def test_a_log_of_the_trace_itself_is_the_same(log, trace_of, events_of):
    trace = trace_of("street.json")
    found = compared(log, events_of(trace, MIDNIGHT), trace, TOP / "scenarios/street.json")
    assert len(found["cabinets"]) == 4
    for it in found["cabinets"]:
        assert it["parting"]["share"] == 1 and it["parting"]["part"] is None and it["pairs"] > 4
        assert it["offset_distance"] == 0 and all(row["distance"] == 0 for row in it["phases"])


def test_a_log_of_a_later_clock_differs_by_that(log, trace_of, events_of):
    """The log's clock is 3.4 s ahead of the bench: so the bench begins each cycle 3.4 s earlier."""
    trace = trace_of("street.json")
    events = events_of(trace, "2026-11-27T07:00:03.4")
    found = compared(log, events, trace, TOP / "scenarios/street.json")
    for it in found["cabinets"]:
        assert it["offset"] == -34 and it["offset_distance"] == 34 and 0 < it["parting"]["share"] < 1
        assert all(row["distance"] == 0 for row in it["phases"] if row["log_count"] == row["bench_count"])


def test_a_green_that_is_longer_is_found_in_its_cycle(log, trace_of, events_of, tmp_path):
    """In the log the first green of phase 4 at cabinet 1 ends 2.5 s later, with its clearance."""
    trace = trace_of("street.json")
    rows = [line.split(",") for line in events_of(trace, MIDNIGHT).read_text().splitlines()]
    own = [row for row in rows if row[1] == "1" and row[3] == "4" and row[2] in ("7", "8", "9", "10", "11", "12")][:6]
    end = own[0][0]
    for row in own:
        head, seconds = row[0][:-10], row[0][-10:]
        tick = 36_000 * int(seconds[:2]) + 600 * int(seconds[3:5]) + round(10 * float(seconds[6:])) + 25
        row[0] = f"{head}{tick // 36_000:02d}:{tick // 600 % 60:02d}:{tick // 10 % 60:02d}.{tick % 10}"
    rows[1:] = sorted(rows[1:], key=lambda row: row[0])
    path = tmp_path / "changed.csv"
    path.write_text("\n".join(",".join(row) for row in rows) + "\n")
    found = compared(log, path, trace, TOP / "scenarios/street.json")["cabinets"][0]
    (row,) = (it for it in found["phases"] if it["phase"] == 4)
    at = 36_000 * int(end[11:13]) + 600 * int(end[14:16]) + round(10 * float(end[17:]))
    assert (row["greatest"], found["parting"]["part"]) == (-25, at)
    assert [4, "G", "Y"] in found["parting"]["differ"]


def test_the_page_has_each_cabinet_twice(log, trace_of, events_of, tmp_path):
    from streettools.look.page import writing

    if not writing.LIBRARY.exists():
        pytest.skip("node-d3 is not installed")
    trace = trace_of("two-cabinets.json")
    page = tmp_path / "both.html"
    sheet = TOP / "scenarios/two-cabinets.json"
    log("compare", events_of(trace, MIDNIGHT), trace, "--sheet", sheet, "--page", page)
    text = pathlib.Path(page).read_text()
    for name in ("cabinet 1, log", "cabinet 1, bench", "cabinet 2, log", "cabinet 2, bench"):
        assert name in text
