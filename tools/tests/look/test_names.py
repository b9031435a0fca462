"""Names and partner phases: from a timing sheet to pictures, a report and a log of its intersections as they are."""

import json

import pytest
from streettools.words import run as tool

from .conftest import PAIR, SMALL, run

TEE = """\
title = "Main Street"
[run]
rounds = 7
ticks = 60
[[intersection]]
name = "Main St & Mill Rd"
rings = ["1 2 | 4", "6 | -"]
[intersection.phase]
2 = {name = "Main St eastbound"}
4 = {name = "Mill Rd"}
6 = {name = "Main St westbound"}
[events]
inputs = [{round = 2, cabinet = 1, veh = 4, on = true}, {round = 5, cabinet = 1, veh = 4, on = false}]
"""
"""A T-intersection: no street faces Mill Road, so phase 8 is entered as its partner."""

LEFT_OUT = "left out: phase 8, a placeholder phase that only the rings need"

COORDINATED = """\
title = "Main Street"
[run]
rounds = 4
ticks = 600
[[intersection]]
name = "Main St & 1st Ave"
clock = 00:01:24
command = 1
[intersection.phase]
2 = {name = "Main St"}
[[intersection]]
name = "Main St & $1 Alley"
clock = 00:01:24
command = 1
rings = ["2 | 4"]
[intersection.phase]
2 = {name = "Main St"}
[intersection.pattern.1]
cycle = 90
offset = 10
splits = {2 = 50, 4 = 40}
"""
"""Two intersections in step with pattern 1; the second has two phases in one ring, so 6 and 8 are partners, and 6 is
green with phase 2."""


@pytest.fixture
def planned(tmp_path):
    """Lets `arterial plan` make the scenario of a sheet and its names; returns the trace with the lines that follow."""

    def done(sheet, lines):
        (tmp_path / "street.toml").write_text(sheet)
        assert tool(["plan", "scenario", str(tmp_path / "street.toml"), "-o", str(tmp_path / "street.json")]) == 0
        scenario = json.loads((tmp_path / "street.json").read_text())
        text = json.dumps(scenario, separators=(",", ":"), sort_keys=True)
        return f"S {text}\n" + "".join(f"{line}\n" for line in lines), tmp_path / "street.names.json"

    return done


def without_eight():
    """Returns the lines of the small trace, of a car on the side street, with phase 8 red throughout."""
    for line in SMALL.splitlines()[1:]:
        yield red(line, 8) if line.startswith("F") else line


def coordinated():
    """Returns the lines of a pair in step, whose second cabinet begins with phase 2 alone: phase 6, which start-up
    doesn't turn on, is green a tick later, and then the cabinet is in step, with a target that is a tick on."""
    for line in PAIR.splitlines()[1:]:
        if line.startswith("F 2 60 "):
            yield red(line, 6).replace("C1", "K1")
            line = line.replace("F 2 60 ", "F 2 61 ").replace("C1 0 800", "C1 0 801")
        yield line


def red(line, phase):
    """Returns an F line in which a phase is red."""
    words = line.split(" ")
    words[3] = words[3][: phase - 1] + "R" + words[3][phase:]
    return " ".join(words)


def test_a_sheet_of_a_t_leads_to_a_picture_without_its_partner(planned, drawn, capsys):
    trace, names = planned(TEE, without_eight())
    capsys.readouterr()
    found = drawn("rings", "--names", names, given=trace)
    assert [found.groups[f"ring-{ring}-green"] for ring in (1, 2)] == [3, 2]
    assert found.texts["Main St & Mill Rd (cabinet 1): rings, ticks 0 to 420"] == 1
    assert found.texts[f"2 Main St eastbound, 4 Mill Rd, 6 Main St westbound; {LEFT_OUT}"] == 1
    assert found.texts["4 Mill Rd"] == 1 and not any(text.startswith("8") for text in found.texts)


def test_the_report_names_phases_and_leaves_the_partner_out(planned, look, capsys):
    trace, names = planned(TEE, without_eight())
    capsys.readouterr()
    value = json.loads(look("report", "--json", "--names", names, given=trace))
    (cabinet,) = value["cabinets"]
    assert (value["title"], cabinet["name"], cabinet["left_out"]) == ("Main Street", "Main St & Mill Rd", [8])
    assert [(it["phase"], it["name"]) for it in cabinet["phases"]] == [
        (2, "Main St eastbound"), (4, "Mill Rd"), (6, "Main St westbound")
    ]  # fmt: skip
    lines = look("report", "--names", names, given=trace).splitlines()
    assert lines[0].startswith("Main Street: 7 rounds") and lines[2:4] == ["Main St & Mill Rd (cabinet 1)", LEFT_OUT]


def test_a_partner_that_is_coordinated_is_left_out(planned, drawn, look, capsys):
    """The second intersection's phase 6 is green all the time, as phase 2 is; its bars and its events are left out."""
    trace, names = planned(COORDINATED, coordinated())
    capsys.readouterr()
    found = drawn("rings", "--cabinet", "2", given=trace)
    assert [found.groups[f"ring-{ring}-green"] for ring in (1, 2)] == [1, 1]
    found = drawn("rings", "--cabinet", "2", "--names", names, given=trace)
    assert [found.groups[f"ring-{ring}-green"] for ring in (1, 2)] == [1, 0]
    found = drawn("coordination", "--travel", "10", "--names", names, given=trace)
    assert [found.groups[f"cabinet-2-{way}-green"] for way in ("outbound", "inbound")] == [1, 1]
    assert found.texts["Main St & $1 Alley"] == 1 and found.texts["phases 2, 6"] == 1 and found.texts["phase 2"] == 1
    assert found.texts["cabinet 2 left out: phases 6 and 8, placeholder phases that only the rings need"] == 1
    found = drawn("offset", "--cabinet", "2", "--names", names, given=trace)
    assert found.texts["Main St & $1 Alley (cabinet 2): the offset, ticks 0 to 2400"] == 1


def test_names_start_and_travel_come_from_the_file_that_has_the_name_of_the_trace(planned, drawn, tmp_path, capsys):
    """The run starts at 0:01:24 and has 4 minutes: from 0:02 to 0:03 is from second 36 to 96. The sheet has 20 s of
    travel; a cabinet is named by a part of its name."""
    sheet = COORDINATED.replace('name = "Main St & 1st Ave"', 'name = "Main St & 1st Ave"\ntravel = 20')
    text, _ = planned(sheet, coordinated())
    trace = tmp_path / "street.trace"
    trace.write_text(text)
    capsys.readouterr()
    found = drawn("rings", "--cabinet", "alley", "--from", "00:02", "--to", "00:03", trace)
    assert found.texts["Main St & $1 Alley (cabinet 2): rings, ticks 360 to 960"] == 1
    assert found.texts["00:02:00"] == 1 and found.texts["time of day (hours:minutes:seconds)"] == 1
    found = drawn("coordination", "--cabinets", "1st Ave,Alley", trace)
    assert found.texts["20 s away"] == 1 and found.texts["outbound band"] == 1
    dated, timed = (run("events", "--start", it, trace).stdout for it in ("2026-11-27", "2026-11-27T00:01:24"))
    assert dated == timed and len(dated.splitlines()) > 5
    ran = run("rings", "--cabinet", "elm", "-o", tmp_path / "x.svg", trace)
    assert ran.returncode == 2 and "no cabinet named 'elm': there are 'Main St & 1st Ave', 'Main St & $1" in ran.stderr
    ran = run("rings", "--from", "07:00", "-o", tmp_path / "x.svg", trace)
    assert ran.returncode == 2 and "07:00 is not in the run, which is from 00:01:24 to 00:05:24" in ran.stderr


def test_the_event_log_has_no_row_of_a_partner(planned, capsys):
    trace, names = planned(COORDINATED, coordinated())
    words = ("events", "--start", "2026-11-27T06:00:00")
    whole = run(*words, given=trace).stdout.splitlines()
    ran = run(*words, "--names", names, given=trace)
    gone = {",".join(line.split(",")[1:]) for line in set(whole) - set(ran.stdout.splitlines())}
    assert gone == {"2,0,6", "2,1,6", "2,139,50", "2,141,40"}
    words = (
        "look: Main St & $1 Alley (cabinet 2): left out: phases 6 and 8, placeholder phases that only the rings need\n"
    )
    assert (ran.returncode, ran.stderr) == (0, words)


def test_names_that_are_no_names_are_told(tmp_path):
    """No JSON, a partner that is no phase, more intersections than cabinets, no file."""
    file = tmp_path / "x.names.json"
    faults = [("[1]", "no names file"), ("{", "no names file"), ("\0\xff", "no names file"),
              ('{"intersections":[{"partners":["8"]}]}', "placeholder phases that aren't phases"),
              ('{"intersections":[{},{}]}', "it names 2 intersections, and the trace has 1 cabinets")]  # fmt: skip
    for text, words in faults:
        file.write_text(text)
        ran = run("report", "--names", file, given=SMALL)
        assert (ran.returncode, ran.stdout) == (2, "") and words in ran.stderr and ran.stderr.count("\n") == 1
    ran = run("report", "--names", "/nowhere/names.json", given=SMALL)
    assert (ran.returncode, ran.stderr) == (1, "look: /nowhere/names.json: No such file or directory\n")
