"""Places in texts that can't be read, and warnings."""

import json

import pytest

from streettools.plan import bands, check, jsontext, names, reading, sources, street_facts, toml_text
from streettools.plan.findings import Level

SCENARIO = {"version": 1, "rounds": 10, "ticks": 10, "cabinets": [{}]}


@pytest.mark.parametrize(
    ("text", "place", "words"),
    [
        ('{\n  "version": 1,,\n}', (2, 16), "a name in double quotes was expected"),
        ('{"a": [1, 2,]}', (1, 13), "the comma before it is one too many"),
        ("{'a': 1}", (1, 2), "texts are in double quotes"),
        ('{"a": 007}', (1, 8), "numbers have no leading zeros"),
        ('{"a": 1 // one\n}', (1, 9), "JSON has no comments"),
        ('{"a": NaN}', (1, 7), "JSON has no such number"),
        ('{"a": True}', (1, 7), "JSON has true, false and null"),
        ('{"a" 1}', (1, 6), "a colon was expected after the name"),
        ('{"a": 1}\n{}', (2, 1), "the text was expected to end here"),
        ('{"a": "b', (1, 7), "its closing quote was expected"),
        ("", (1, 1), "but the text ends"),
        ('{"a": 1e999}', (1, 7), "a number that is too large"),
        ('{"a": "\\ud800"}', (1, 8), "half a character"),
        ("[" * 128, (1, 128), "more than 127 deep"),
        ("\ufeff{}", (1, 1), "a byte order mark precedes the text"),
    ],
)
def test_a_text_that_is_no_json_has_line_column_and_what_was_expected(text, place, words):
    """Fifteen usual mistakes."""
    with pytest.raises(jsontext.NoJson) as caught:
        jsontext.read(text.encode())
    assert (caught.value.place.line, caught.value.place.column) == place and words in caught.value.words


def test_octets_that_are_no_text_are_told():
    """An octet of another encoding, in line 2."""
    with pytest.raises(jsontext.NoJson, match="line 2, column 5: the byte e9 is not UTF-8"):
        jsontext.read(b'{\n"caf\xe9": 1}')


def test_a_value_is_found_by_its_path():
    """The last of two equal names counts, also below it."""
    text = '{"cabinets": [{"clock": 1}],\n "cabinets": [{},\n {"clock": 864000}]}'
    assert str(jsontext.place_of(text, "cabinets[1].clock")) == "line 3, column 12"
    assert str(jsontext.place_of(text, "cabinets[1].speed")) == "line 3, column 2"


def findings(text: str, level: Level = Level.WARNING) -> list[str]:
    """Returns what a check finds in a sheet, of one level."""
    street = reading.street_of(toml_text.read(text))
    return [str(it) for it in check.findings(sources.Source("street.toml", street=street)) if it.level is level]


WARNINGS = {
    "a yellow below what speed asks": (
        "[intersection.phase]\n2 = {speed = 45}",
        "yellow change of 4 s; 45 mph ask 4.3 s",
    ),
    "a grade that asks more": (
        "[intersection.phase]\n2 = {speed = 45, grade = -4, yellow = 4.3}",
        "45 mph at a grade of -4 % ask 4.8 s",
    ),
    "a clearance short for the width": (
        "[intersection.phase]\n4 = {crossing = 60}",
        "pedestrian clearance of 12 s; 60 ft at 3.5 ft/s take 18 s",
    ),
    "a split that only just fits": (
        "[intersection.pattern.1]\nsplits = {1 = 15, 2 = 30, 3 = 10, 4 = 35, 5 = 15, 6 = 30, 7 = 15, 8 = 30}",
        "pattern 1 gives phase 3 10 s, which only just fits: 0.5 s to spare",
    ),
    "a red clearance in seconds": (
        "[intersection.phase]\n3 = {red_clear = 0.2}",
        "red clearance of 0.2 s; are 2 s meant?",
    ),
    "a passage in seconds": ("[intersection.phase]\n3 = {passage = 0.3}", "passage time of 0.3 s; are 3 s meant?"),
    "a maximum below the minimum": (
        "[intersection.phase]\n3 = {max_green = 4}",
        "maximum green of 4 s, less than its minimum green of 5 s",
    ),
    "a preempt without dwell phases": (
        "[intersection.preempt.2]\ndelay = 3\ntrack = [4]",
        "preempt 2 has no dwell phases, so its input does nothing",
    ),
    "an opening pattern that isn't there": ("command = 7", "opens with pattern 7, which isn't defined: it runs free"),
}


@pytest.mark.parametrize("what", WARNINGS)
def test_what_no_rule_forbids_and_nobody_means_is_a_warning(what):
    """Each by itself, with its numbers; the street of the standard table has none."""
    text, words = WARNINGS[what]
    found = findings(f'[[intersection]]\nname = "Main"\n{text}\n')
    assert len(found) == 1 and words in found[0]
    assert findings("[[intersection]]\n") == []


def test_schedules_are_looked_at():
    """A pattern that isn't defined, a section that nobody has, seconds that look like hours and minutes."""
    undefined = findings('schedule = [{at = 06:00:00, pattern = 9}]\n[[intersection]]\nname = "Main"\n')
    assert undefined == [
        "Main: warning (probably a mistake): the schedule commands pattern 9 at 06:00:00, which isn't defined: the "
        "cabinet refuses the command and stays in free operation"
    ]
    nobody = findings("schedule = [{at = 06:00:00, section = 2, pattern = 1}]\n[[intersection]]\n")
    assert nobody[:1] == [
        "schedule: warning (probably a mistake): section 2 has entries, but no intersection is of that section"
    ]
    assert "cabinet 1: warning (probably a mistake): the schedule has no entry for section 1" in nobody[1]
    hours = findings("schedule = [{at = 700, pattern = 1}, {at = 1630, pattern = 1}]\n[[intersection]]\n")
    assert [it.split("; ")[1] for it in hours] == [
        'is 7:00 meant? That is second 25200, or "07:00"',
        'is 16:30 meant? That is second 59400, or "16:30"',
    ]
    assert findings("schedule = [{at = 70, pattern = 254}, {at = 06:00:00, pattern = 1}]\n[[intersection]]\n") == []


@pytest.mark.parametrize(
    ("seconds", "meant"),
    [
        ([630, 34200, 55800], ["6:30"]),
        ([34200, 1530], ["15:30"]),
        ([34200, 1500, 68400], ["15:00"]),
        ([600, 34200], []),
        ([70, 130, 34200], []),
        ([0, 600, 34200], []),
    ],
)
def test_a_scenario_with_one_time_as_hours_and_minutes_is_warned_of(seconds, meant):
    """630 and 1530 are no whole minutes; 1500, after 9:30, is in order as 15:00. A run from midnight on is nothing."""
    schedule = [{"second": it, "section": 1, "pattern": 1} for it in seconds]
    street = reading.Street({**SCENARIO, "master": {"schedule": schedule}}, names.Names())
    found = [str(it) for it in check.findings(sources.Source("street.json", "{}", street=street))]
    assert [it.split("; is ")[1].split(" meant")[0] for it in found if "; is " in it and "meant" in it] == meant


def test_a_scenario_in_which_whole_seconds_stand_for_tenths_is_warned_of(tmp_path):
    """Cells have tenths: 2 of red clearance are 0.2 s; a yellow of 4 breaks rule 10, and its sentence asks the same."""
    path = tmp_path / "street.json"
    path.write_text(json.dumps({**SCENARIO, "cabinets": [{"cells": [["phase", 2, 9, 2], ["phase", 2, 8, 4]]}]}))
    found = [str(it) for it in check.findings(sources.load(str(path)))]
    assert "yellow change of 0.4 s (are whole seconds meant? A cell has tenths of a second)" in found[0]
    assert "red clearance of 0.2 s; are 2 s meant?" in found[1]


@pytest.mark.parametrize(("speed", "due"), [(25, 3.0), (35, 3.6), (45, 4.3), (55, 5.0)])
def test_yellow_changes_are_those_of_the_tables(speed, due):
    """One second of reaction and 10 ft/s2 on the level, as the tables of agencies have them."""
    assert street_facts.yellow_due(names.Phase(speed=speed), metric=False) == due


@pytest.mark.parametrize(("speed", "width", "due"), [(25, 40, 1.6), (40, 60, 1.4), (45, 80, 1.5), (30, 0, None)])
def test_red_clearances_are_width_and_a_vehicle_by_speed(speed, width, due):
    """60 ft at 36.67 ft/s, 80 ft at 58.67 ft/s, 100 ft at 66 ft/s; 12.2 m and 18.3 m are 40 ft and 60 ft."""
    assert street_facts.red_due(names.Phase(speed=speed, width=width), metric=False) == due
    phase = names.Phase(speed=round(speed * 1.609, 1), width=round(width * 0.3048, 1))
    assert street_facts.red_due(phase, metric=True) == due


def test_metric_speeds_and_lengths_are_the_same_street():
    """72.4 km/h are 45 mph, and 18.3 m are 60 ft."""
    phase = names.Phase(speed=72.4, crossing=18.3)
    assert street_facts.yellow_due(phase, metric=True) == 4.3 and street_facts.clearance_due(phase, metric=True) == 18


FAR = """
[[intersection]]
name = "A"
travel = {travel}
[[intersection]]
name = "B"
[intersection.pattern.1]
cycle = 90
offset = 45
"""


def band_words(program, travel: int) -> list[str]:
    """Returns what a check says of the bands of two intersections, 45 s apart in their offsets."""
    street = reading.street_of(toml_text.read(FAR.replace("{travel}", str(travel))))
    return [
        f"{it.level.value}: {it.words}"
        for it in check.findings(sources.Source("street.toml", street=street), str(program))
        if "band" in it.words
    ]


def test_offsets_that_leave_no_band_are_told(program):
    """The windows are 24.5 s. With no time between them and offsets 0 and 45 s nobody meets both greens, either way;
    with 45 s outbound all do, and since twice 45 s is the cycle, inbound too; with 30 s those of 9.5 s do outbound, and
    inbound those of as many."""
    assert band_words(program, 0) == ["warning: the offsets of pattern 1 leave no through band, A to B or back"]
    assert band_words(program, 45) == []
    assert band_words(program, 30) == []


def test_a_half_cycle_has_a_line_in_place_of_its_bands(program):
    """A runs 90 s and B half of it: 24.5 s of green are not the same windows in both."""
    half = FAR.replace("{travel}", "20") + "[[intersection]]\nname = \"C\"\n[intersection.pattern.1]\ncycle = 90\n"
    half = half.replace('name = "B"', 'name = "B"\ntravel = 20').replace("cycle = 90\noffset = 45", "cycle = 45")
    street = reading.street_of(toml_text.read(half))
    assert [f"{it.level.value}: {it}" for it in bands.findings(street, str(program))] == [
        "note: section 1: note: the bands of pattern 1 are not computed, since its cycles differ: 90 s, and 45 s at B. "
        "`./look coordination` draws the bands of a run"
    ]


def test_a_plan_with_a_wrong_value_elsewhere_has_its_broken_rules_told_too(tmp_path):
    """The value first, as the program does; then the rule."""
    path = tmp_path / "street.json"
    cabinets = [{"cells": [["phase", 2, 8, 29]]}]
    path.write_text(json.dumps({**SCENARIO, "cabinets": cabinets, "inputs": [{"round": 11, "cabinet": 1, "ped": 2}]}))
    lines = [it.line for it in check.findings(sources.load(str(path)))]
    assert lines == ["scenario: limit inputs[0].round", "scenario: cabinet 1 breaks rule 10 at row 2"]


@pytest.mark.parametrize(
    "text",
    [
        '{"intersections": [{"phases": {"x": {}}}]}',
        '{"intersections": [{"travel": "far"}]}',
        '{"title": 1, "street": 2}',
        "[]",
        "{",
    ],
)
def test_a_file_that_is_no_names_file_is_refused(text):
    """Phases that are none, measures in words, unknown names, other JSON, none."""
    with pytest.raises(names.NoNames):
        names.read(text)


def test_a_split_that_several_phases_can_mend_together_is_told_so():
    """Phase 4 lacks 4 s in a cycle of 80 s. Of the others of its ring 1 and 3 have 2 s each (12 less 5 + 3.5 + 1), and
    2 has 0.5 s (29 less 5.5, of which walk 7, clearance 12 and a skip of 4 s need 23)."""
    sheet = """
    [[intersection]]
    [intersection.coordination]
    correction = "shortway"
    add_limit = 10
    skip_limit = 4
    [intersection.phase]
    4 = {yellow = 3.5, ped_clear = 19}
    8 = {yellow = 3.5, ped_clear = 19}
    [intersection.pattern.1]
    cycle = 80
    splits = {1 = 12, 2 = 29, 3 = 12, 4 = 27, 5 = 12, 6 = 29, 7 = 12, 8 = 27}
    """
    told = findings(sheet, Level.ERROR)
    assert len(told) == 2 and all("give it 4 s more; no single phase of its ring" in it for it in told)
    told = findings(sheet.replace("= 12", "= 10").replace("cycle = 80", "cycle = 76"), Level.ERROR)
    assert len(told) == 2 and all("it needs a longer cycle than 76 s" in it for it in told)
