"""Mistakes that people make in a sheet, each with the sentence in which a check finds it. The sentences were written by
hand, before the check could say them, from the times of the sheet below."""

import pytest

from streettools.plan import check, names, sources

SHEET = """
title = "Harbor"
units = "us"
schedule = [
  {at = 06:30:00, pattern = 1},
  {at = 09:30:00, pattern = 2},
  {at = 15:30:00, pattern = 3},
]

[master]
clock = 06:29:00
clock_every = 300

[[intersection]]
name = "Front St"
clock = 06:29:00
rings = ["1 2 | 3 4", "5 6 | 7 8"]

[intersection.coordination]
correction = "shortway"

[intersection.phase]
"1 5" = {name = "Harbor left", speed = 25}
2 = {name = "Harbor out", speed = 40, width = 60, yellow = 4.0, red_clear = 1.5}
6 = {name = "Harbor in", speed = 40, width = 60}
"3 7" = {name = "Front left"}
4 = {name = "Front north", crossing = 40}
8 = {name = "Front south", crossing = 40}

[intersection.pattern.1]
cycle = 90
offset = 0
splits = {1 = 15, 2 = 30, 3 = 15, 4 = 30, 5 = 15, 6 = 30, 7 = 15, 8 = 30}

[intersection.pattern.2]
cycle = 100
offset = 20
splits = {1 = 15, 2 = 35, 3 = 15, 4 = 35, 5 = 15, 6 = 35, 7 = 15, 8 = 35}

[intersection.pattern.3]
cycle = 120
offset = 40
splits = {1 = 20, 2 = 40, 3 = 20, 4 = 40, 5 = 20, 6 = 40, 7 = 20, 8 = 40}

[intersection.preempt.1]
delay = 2
track = [4]
dwell = [2]

[intersection.detector]
1 = {phase = 4}

[[intersection]]
name = "Grant St"
clock = 06:29:00

[intersection.pattern.1]
cycle = 90
splits = {1 = 15, 2 = 30, 3 = 15, 4 = 30, 5 = 15, 6 = 30, 7 = 15, 8 = 30}

[intersection.pattern.2]
cycle = 100
splits = {1 = 15, 2 = 35, 3 = 15, 4 = 35, 5 = 15, 6 = 35, 7 = 15, 8 = 35}

[intersection.pattern.3]
cycle = 120
splits = {1 = 20, 2 = 40, 3 = 20, 4 = 40, 5 = 20, 6 = 40, 7 = 20, 8 = 40}

[events]
"""

MISTAKE, DANGEROUS, LOOK = "warning (probably a mistake)", "warning (dangerous)", "warning (worth a look)"
PHASE_2 = 'yellow = 4.0, red_clear = 1.5}'
RINGS = '["1 2 | 3 4", "5 6 | 7 8"]'
SPLITS = "splits = {1 = 15, 2 = 30, 3 = 15, 4 = 30, 5 = 15, 6 = 30, 7 = 15, 8 = 30}"
BUS = (
    "priority = [{round = 90, cabinet = 1, number = 1, class = 1, level = 1, phase = 2, "
    "arrival = 300, departure = 350}]"
)
HIGH = "[intersection.preempt.1]"

FOUND = {
    "a yellow in tenths": (
        {PHASE_2: "yellow = 43}"},
        "intersection 1 (Front St), phase 2, yellow: error: 43 s is not 0 to 25.5: are tenths meant? The sheet has "
        "seconds, so write 4.3",
    ),
    "a red clearance in tenths, before the sum that follows from it": (
        {'"3 7" = {name = "Front left"}': '"3 7" = {name = "Front left", red_clear = 15}'},
        f"Front St: {MISTAKE}: phase 3 (Front left) has a red clearance of 15 s, longer than 6 s: are tenths meant? "
        "Write 1.5",
    ),
    "a passage in tenths": (
        {'"3 7" = {name = "Front left"}': '"3 7" = {name = "Front left", passage = 20}'},
        f"Front St: {MISTAKE}: phase 3 (Front left) has a passage time of 20 s, longer than 9 s: are tenths meant? "
        "Write 2",
    ),
    "splits beyond the cycle": (
        {SPLITS: SPLITS.replace("4 = 30", "4 = 33")},
        "Front St: error, rule 17: pattern 1 (split 1): the splits of ring 1, phases 1, 2, 3 and 4, come to 15 + 30 + "
        "15 + 33 = 93 s, but the cycle is 90 s; take 3 s off",
    ),
    "a crossing longer than its split": (
        {"crossing = 40}\n8": "ped_clear = 22}\n8"},
        "Front St: error, rule 18: pattern 1 gives phase 4 (Front north) a split of 30 s, but walk 7 + flashing don't "
        "walk 22 + yellow 4 + red 1.5 need 34.5 s; give it 5 s more, e.g. from phase 3, which has 5 s to spare",
    ),
    "an offset above its cycle": (
        {"offset = 40": "offset = 125"},
        "Front St: error, rule 15: pattern 3 has an offset of 125 s in a cycle of 120 s; it must be less: 5 s is the "
        "same moment",
    ),
    "a list of concurrent phases on one side alone": (
        {'4 = {name = "Front north", ': '4 = {name = "Front north", concurrent = [7], '},
        "Front St: error, rule 3: phase 8 (Front south) may be on with phase 4 (Front north), but not the other way "
        "round: 4 lists 7; put 8 into the list of 4, or remove 4 from that of 8",
    ),
    "a pairing that is swapped": (
        {RINGS: '["1 2 | 3 8", "5 6 | 7 4"]'},
        f"Front St: {DANGEROUS}: phase 3 (Front left) and phase 4 (Front north) may be green together by the rings; in "
        "the usual numbering they cross: if two phases are swapped in `rings`, put them back; if your numbering is "
        "another, write `conflicts` with the pairs that cross",
    ),
    "a schedule with a pattern that isn't there": (
        {"pattern = 3}": "pattern = 4}"},
        f"Front St and Grant St: {MISTAKE}: the schedule commands pattern 4 at 15:30:00, which isn't defined: each "
        "cabinet refuses the command and stays in pattern 2, commanded at 09:30:00",
    ),
    "a yellow that is short for the speed": (
        {"speed = 40, width = 60, yellow = 4.0": "speed = 45, width = 60, yellow = 3.5"},
        f"Front St: {DANGEROUS}: phase 2 (Harbor out) has a yellow change of 3.5 s; 45 mph ask 4.3 s",
    ),
    "phases that weren't checked": (
        {"Harbor in": "Harbor in"},
        "note: not checked against the street: yellow and red clearance of phases 3, 4, 7 and 8 at Front St; every "
        "phase at Grant St (no `speed`). Nor red clearance of phases 1, 3, 4, 5, 7 and 8 at Front St; every phase at "
        "Grant St (no `width`)",
    ),
    "all times as hours and minutes": (
        {"06:30:00,": "630,", "09:30:00,": "930,", "15:30:00,": "1530,"},
        f'schedule: {MISTAKE}: second 930 of the day is 0:15:30; is 9:30 meant? That is second 34200, or "09:30"',
    ),
    "one time as hours and minutes": (
        {"06:30:00,": "630,"},
        f'schedule: {MISTAKE}: second 630 of the day is 0:10:30; is 6:30 meant? That is second 23400, or "06:30"',
    ),
    "a time with four digits": (
        {"06:30:00,": "0630,"},
        'line 5, column 10: error: write "06:30" for a time of day (no TOML: unclosed inline table)',
    ),
    "a preempt without dwell phases": (
        {"dwell = [2]": ""},
        f"Front St: {MISTAKE}: preempt 1 has no dwell phases, so its input does nothing",
    ),
    "a bus for a phase that isn't coordinated": (
        {"[events]": "[events]\n" + BUS.replace("phase = 2", "phase = 4")},
        f"Front St: {MISTAKE}: a priority request has no effect, for phase 4 (Front north): a request counts only for "
        "a coordinated phase; ask for 2 and 6",
    ),
    "an arrival in seconds": (
        {"[events]": "[events]\n" + BUS.replace("arrival = 300", "arrival = 15")},
        f"Front St: {MISTAKE}: a priority request has arrival = 15, which is 1.5 s: events count ticks of 0.1 s; if 15 "
        "s are meant, write arrival = 150, and the departure in ticks, too",
    ),
    "no clocks beside the master's": (
        {"clock = 06:29:00\nrings": "rings", 'St"\nclock = 06:29:00\n\n': 'St"\n\n'},
        f"Front St and Grant St: {MISTAKE}: the master's clock starts at 06:29:00, but there is no `clock` here: "
        "cabinets start at 00:00:00 until the master sets them, after 5 min",
    ),
    "a split that is forgotten": (
        {SPLITS: SPLITS.replace(" 7 = 15,", "")},
        f"Front St: {MISTAKE}: pattern 1 leaves splits to the standard table: phase 7 (Front left), 15 s; write them "
        "in `splits`",
    ),
    # from here on, others that a new user makes
    "a decimal comma": (
        {PHASE_2: "yellow = 4,3, red_clear = 1.5}"},
        "line 24, column 63: error: a number has a decimal point, not a comma: write 4.3 (no TOML: expected '=' after "
        "a key in a key/value pair)",
    ),
    "a decimal comma in quotes": (
        {PHASE_2: 'yellow = "4,3"}'},
        "intersection 1 (Front St), phase 2, yellow: error: expected a number, found '4,3': write 4.3, with a point "
        "and without quotes",
    ),
    "a yellow of 0": (
        {PHASE_2: "yellow = 0, red_clear = 1.5}"},
        "Front St: error, rule 10: phase 2 (Harbor out) has a yellow change of 0 s; it must be 3 s or more",
    ),
    "an offset in per cent": (
        {"offset = 40": 'offset = "25%"'},
        "intersection 1 (Front St), pattern 3, offset: error: '25%' is in per cent, and a sheet has seconds: write 30",
    ),
    "times out of order": (
        {"15:30:00": "05:30:00"},
        f"schedule: {LOOK}: 05:30:00 is listed after 09:30:00: the time of day counts, not the order of the list; is "
        "the time right?",
    ),
    "a phase that is off and has a split": (
        {RINGS: '["1 2 | 4", "5 6 | 8"]'},
        f"Front St: {MISTAKE}: pattern 1 gives phase 3 (Front left) 15 s, but the phase isn't enabled: draw it in "
        "`rings`, or take the split out",
    ),
    "two intersections of one name": (
        {"Grant St": "Front St"},
        f"Front St: {MISTAKE}: intersections 1 and 2 have the same name: reports can't tell them apart; give each its "
        "own",
    ),
    "a list of travel times": (
        {"clock = 06:29:00\nrings": "clock = 06:29:00\ntravel = [20, 25]\nrings"},
        "intersection 1 (Front St), travel: error: [20, 25] is a list: write one number at each intersection, the "
        "seconds from it to the next",
    ),
    "travel times at the top": (
        {'units = "us"': "travel = [20]"},
        "travel: error: is unknown here; write it in [[intersection]]",
    ),
    "units by the name of a speed": (
        {'units = "us"': 'units = "mph"'},
        "units: error: 'mph' is not a system of units: write \"us\" for mph and feet, \"metric\" for km/h and metres",
    ),
    "kilometres an hour without a word": (
        {"speed = 40, width = 60}": "speed = 70, width = 60, yellow = 6.2}"},
        f"Front St: {MISTAKE}: phase 6 (Harbor in) has a speed of 70 mph; if that is in other units, write units = "
        '"metric"',
    ),
    "a walk longer than the maximum green": (
        {'8 = {name = "Front south", ': '8 = {name = "Front south", walk = 12, max_green = 11, '},
        f"Front St: {MISTAKE}: phase 8 (Front south) has a walk of 12 s, longer than its maximum green of 11 s: are "
        "they swapped?",
    ),
    "a track phase that is off": (
        {"track = [4]": "track = [9]"},
        "Front St: error, rule 20: preempt 1 has 9 among its track phases, which is not enabled",
    ),
    "a cycle of 0": (
        {"cycle = 120\noffset = 40": "cycle = 0\noffset = 40"},
        f"Front St: {MISTAKE}: pattern 3 isn't defined, since its cycle is 0: its splits do nothing; write its cycle",
    ),
    "a pattern that is there twice": (
        {"[intersection.pattern.2]\ncycle = 100\noffset": "[intersection.pattern.1]\ncycle = 100\noffset"},
        "line 35, column 24: error: this is in the sheet twice: keep one, or give the second a number or name of its "
        "own (no TOML: cannot declare ('intersection', 'pattern', '1') twice)",
    ),
    "a ring without phases": (
        {RINGS: '["1 2 | 3 4", ""]'},
        "intersection 1 (Front St), rings: error: the line of ring 1 has 1 of the bars |, and that of ring 2 0: "
        "both rings cross each barrier together; draw - where a ring has no phase",
    ),
    "an intersection of another section": (
        {"clock = 06:29:00\nrings": "clock = 06:29:00\nsection = 2\nrings"},
        f"Front St: {MISTAKE}: the schedule has no entry for section 2, so the master commands no pattern here: write "
        "section = 2 in an entry, or another section at the intersection",
    ),
    "a time past midnight": (
        {"15:30:00": "24:30:00"},
        "line 7, column 11: error: a day has 24 hours: half past midnight is 00:30:00 (no TOML: unclosed inline table)",
    ),
    "a time past midnight in quotes": (
        {"15:30:00": '"24:30"'},
        "schedule 3, at: error: expected a time of day, as 07:30:00, found '24:30'; a day has 24 hours: half past "
        "midnight is 00:30:00",
    ),
    "a red clearance that is short for the width": (
        {PHASE_2: "yellow = 4.0, red_clear = 1.0}"},
        f"Front St: {DANGEROUS}: phase 2 (Harbor out) has a red clearance of 1 s; 60 ft and a vehicle of 20 ft at 40 "
        "mph take 1.4 s",
    ),
    "a recall of a walk that isn't there": (
        {'"3 7" = {name = "Front left"}': '"3 7" = {name = "Front left", recall = "pedestrian"}'},
        f'Front St: {MISTAKE}: phase 3 (Front left) has recall "pedestrian" and a walk of 0 s, so the recall does '
        'nothing: give it a walk, or recall "minimum"',
    ),
    "rings against the conflict card": (
        {RINGS: RINGS + "\nconflicts = [[3, 8], [3, 4]]"},
        "Front St: error: the card `conflicts` has [3, 8], but phase 3 (Front left) and phase 8 (Front south) may be "
        "green together, between the same barriers (3 4 with 7 8 in sequence 1): draw a barrier between them in "
        "`rings`, or both in one ring",
    ),
    "a master without a clock": (
        {"[master]\nclock = 06:29:00": "[master]"},
        f"master: {MISTAKE}: it has a schedule and no `clock`, so its day starts at 00:00:00 while cabinets start at "
        "06:29:00: write the same time",
    ),
    "a detector of a phase that is off": (
        {"1 = {phase = 4}": "1 = {phase = 9}"},
        f"Front St: {MISTAKE}: detector 1 calls phase 9, which isn't enabled: it does nothing",
    ),
    "two patterns at one time": (
        {"15:30:00": "09:30:00"},
        f"schedule: {MISTAKE}: section 1 has pattern 2 and pattern 3 at 09:30:00: the later in the list counts; take "
        "the other out",
    ),
    "a text without quotes": (
        {'correction = "shortway"': "correction = shortway"},
        'line 20, column 14: error: texts are in quotes: write "shortway" (no TOML: invalid value)',
    ),
}


def found_in(text: str) -> list[str]:
    """Returns the lines that a check prints of a sheet."""
    source = sources.source_of("street.toml", text.encode(), names.Names)
    return [str(it) for it in check.findings(source, "no program")]


def changed(edits: dict[str, str]) -> str:
    """Returns the sheet with each text of the edits, which it has, replaced once."""
    text = SHEET
    for old, new in edits.items():
        assert old in text
        text = text.replace(old, new, 1)
    return text


@pytest.mark.parametrize("mistake", FOUND)
def test_a_mistake_is_found_with_a_sentence_to_act_upon(mistake):
    """One of the lines is the sentence, or ends with it."""
    edits, sentence = FOUND[mistake]
    lines = found_in(changed(edits))
    assert any(line.endswith(sentence) for line in lines), "\n".join(lines)


def test_the_sheet_without_mistakes_has_no_warning():
    """Notes alone."""
    assert [line for line in found_in(SHEET) if "note: " not in line] == []


def test_times_in_tenths_are_shown_before_the_sums_that_follow_from_them():
    """5 s + 3.5 s + 15 s are 23.5 s, and the split has 15 s."""
    lines = found_in(changed(FOUND["a red clearance in tenths, before the sum that follows from it"][0]))
    assert "are tenths meant? Write 1.5" in lines[0] and any("rule 18" in line for line in lines[1:])


def test_warnings_come_by_their_rank():
    """A short yellow, then a preempt that does nothing, then times out of order."""
    lines = found_in(changed({"yellow = 4.0": "yellow = 3.5", "dwell = [2]": "", "15:30:00": "05:30:00"}))
    ranks = [line.split("(")[1].split(")")[0] for line in lines[:3]]
    assert ranks == ["dangerous", "probably a mistake", "worth a look"]


def test_beside_a_value_that_is_not_allowed_the_times_of_the_schedule_are_checked():
    """Half past six is written as 630, and the yellow change in tenths: both are reported, and that the rest waits."""
    text = SHEET.replace("at = 06:30:00", "at = 630").replace("yellow = 4.0", "yellow = 40")
    found = found_in(text)
    assert any("yellow: error: 40 s is not 0 to 25.5" in it for it in found)
    assert any("second 630 of the day is 0:10:30; is 6:30 meant?" in it for it in found)
    assert "note: rules and warnings are checked after these values are corrected" in found


def test_a_time_of_the_schedule_that_is_not_allowed_gives_no_doubt_about_its_order():
    """The time that isn't one stands for nothing."""
    found = found_in(SHEET.replace("at = 15:30:00", 'at = "25:30"'))
    assert any("expected a time of day" in it for it in found) and not any("is listed after" in it for it in found)
