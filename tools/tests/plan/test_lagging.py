"""A lagging left turn that is forced off in each cycle, and the side street that waits for it."""

import json
import subprocess

import pytest

from streettools.plan import check, command, fix, reading, rules, sources, toml_text
from streettools.plan.findings import Level
from streettools.shared.cells import put, tables_of

from .conftest import SECONDS

SHEET = """
[run]
rounds = 300
[[intersection]]
name = "Lincoln"
rings = ["1 2 | 4", "{second} | 8"]
command = 1
[intersection.coordination]
correction = "shortway"
[intersection.phase]
"1 5" = {{yellow = 3.5, red_clear = 1, recall = "maximum"}}
"2 6" = {{yellow = 4, red_clear = 1.5, walk = 0, ped_clear = 0}}
"4 8" = {{yellow = 3.5, red_clear = 1.5, walk = 7, ped_clear = 12, recall = "minimum"}}
[intersection.pattern.1]
cycle = 90
offset = 0
splits = {{"1 5" = 15, "2 6" = {through}, "4 8" = {side}}}
"""


LEFTS = """
[run]
rounds = 300
[[intersection]]
name = "Grant"
rings = ["1 2 | 3 4", "6 5 | 7 8"]
command = 1
[intersection.coordination]
correction = "shortway"
[intersection.phase]
"1 5" = {{yellow = 3.5, red_clear = 1, recall = "maximum"}}
"2 6" = {{yellow = 4, red_clear = 1.5, walk = 0, ped_clear = 0}}
"3 7" = {{yellow = 3.5, red_clear = 1, min_green = 5, recall = "minimum"}}
"4 8" = {{yellow = 3.5, red_clear = 1.5, walk = 7, ped_clear = 12, recall = "{recall}"}}
[intersection.pattern.1]
cycle = 110
offset = 0
splits = {{"1 5" = 15, "2 6" = {through}, "3 7" = {left}, "4 8" = 30}}
"""


def greens(program: str, street: reading.Street, phase: int) -> int:
    """Returns in how many frames of pattern 1 a phase is green, over 300 seconds."""
    scenario = json.dumps(street.scenario).encode()
    trace = subprocess.run([program, "run"], input=scenario, capture_output=True, timeout=SECONDS, check=True).stdout
    frames = [line.split() for line in trace.decode().splitlines() if line.startswith("F 1 ")]
    return sum(it[3][phase - 1] == "G" and it[5] == "C1" for it in frames)


def warned(street: reading.Street) -> list[str]:
    """Returns the warnings about phases that may be skipped."""
    found = check.findings(sources.Source("street.toml", street=street))
    return [str(it) for it in found if it.level is Level.WARNING and " skipped when the lagging phase " in str(it)]


@pytest.mark.parametrize(
    ("left", "recall", "lacks", "is_served"),
    [(20, "none", None, True), (19, "none", "0.4 s; give each 1 s", False),
     (19, "minimum", "0.4 s; give each 1 s", True), (13, "minimum", "6.4 s; give each 7 s", False)],
)  # fmt: skip
def test_each_phase_after_a_lagging_left_is_warned_of_that_may_be_skipped(program, left, recall, lacks, is_served):
    """Minimum green 5 s, its own clearance 4.5 s, and the clearances of the left turn 4.5 s and of the through phase
    5.5 s, less a tick: 19.4 s. With 19 s phase 3 is skipped if only 3 and 7 are called. With 13 s it is skipped also
    while 4 and 8 are served, since it then needs 5 + 4.5 + 4.5 = 14 s."""
    street = reading.street_of(toml_text.read(LEFTS.format(left=left, recall=recall, through=65 - left)))
    found = warned(street)
    assert (found == []) is (lacks is None)
    assert lacks is None or "phase 3 and phase 7 may be skipped when the lagging phase 5 is forced off" in found[0]
    assert lacks is None or f"their splits of {left} s are too short by {lacks} more" in found[0]
    assert (greens(program, street, 3) > 0) is is_served
    assert recall == "none" or greens(program, street, 4) > 0


def test_fix_leaves_room_after_a_lagging_left_if_the_cycle_allows_it():
    """Phase 4 asks for 7 + 20 + 5 = 32 s and has 30. Phases 3 and 7 need 20 s each, and have 20: the 2 s come from the
    main street, not from them. In a cycle of 85 s there is no such room (20 + 32 leave 33 s for the main street, which
    needs 40), so only the rules are kept."""
    text = LEFTS.format(left=20, recall="minimum", through=45).replace("ped_clear = 12", "ped_clear = 20")
    street = reading.street_of(toml_text.read(text))
    tables = tables_of(street.scenario["cabinets"][0])
    change = fix.least_change(tables, 1, street.names.intersection(1))
    assert change.roomy == (3, 7) and 3 not in change.after and 7 not in change.after
    assert (change.after[4], change.after[8]) == (32, 32)
    short = tables_of(street.scenario["cabinets"][0])
    put(short, ("pattern", 1, 2), 85)
    change = fix.least_change(short, 1, street.names.intersection(1))
    fix.apply(short, change)
    assert change.roomy == () and not rules.broken(short)


def test_check_fix_prints_the_warnings_that_its_own_sheet_has(tmp_path, capsys):
    """In a cycle of 80 s no splits have room for phases 3 and 7 after phase 5: the corrected sheet says so."""
    sheet = tmp_path / "short.toml"
    text = LEFTS.format(left=13, recall="minimum", through=52).replace("cycle = 110", "cycle = 80")
    sheet.write_text(text)
    assert command.main(["check", "--fix", str(sheet)]) == 2
    said = capsys.readouterr().out
    assert "the corrected plan: Grant: warning (probably a mistake): pattern 1: phase 3 and phase 7 may be" in said


def test_check_fix_gives_an_accepted_plan_the_room_that_it_lacks(tmp_path, capsys):
    """13 s are accepted, and 20 s leave room. The cycle of 110 s has more than that to spare."""
    sheet, mended = tmp_path / "accepted.toml", tmp_path / "mended.toml"
    sheet.write_text(LEFTS.format(left=13, recall="minimum", through=52))
    assert command.main(["check", "--fix", str(sheet), "-o", str(mended)]) == 0
    assert "leaves phases 3 and 7 room after a lagging phase" in capsys.readouterr().out
    assert warned(reading.street_of(toml_text.read(mended.read_text()))) == []


def test_a_new_lead_lag_intersection_serves_its_side_streets(tmp_path, capsys):
    """The sheet that `plan new` writes has no phase that may be skipped."""
    sheet = tmp_path / "new.toml"
    assert command.main(["new", "Main & 1st=leadlag", "Main & 2nd", "--cycle", "110,120", "-o", str(sheet)]) == 0
    assert warned(reading.street_of(toml_text.read(sheet.read_text()))) == []
    assert "skipped" not in capsys.readouterr().err


@pytest.mark.parametrize(("cycle", "is_short"), [(94, True), (95, False)])
def test_a_new_lead_lag_intersection_without_that_room_is_reported(cycle, is_short, tmp_path, capsys):
    """The main street needs 10 s for phase 1, 24 s of green and 5.4 s of clearance, 40 s in whole seconds for phase 6,
    and 11 s for phase 5: 51 s. Phase 3 needs 5 + 4.5 s, and 4.5 + 5.4 s less a tick: 20 s; phase 4 needs 7 + 12 + 4.7
    s: 24 s. These are 95 s."""
    sheet = tmp_path / "new.toml"
    assert command.main(["new", "Main & 1st=leadlag", "--cycle", str(cycle), "-o", str(sheet)]) == 0
    assert ("may be skipped when the lagging phase 5 is forced off" in capsys.readouterr().err) is is_short


@pytest.mark.parametrize(
    ("second", "side", "is_served"), [("6 5", 33, False), ("6 5", 34, True), ("5 6", 33, True), ("5 6", 28, True)]
)
def test_a_side_street_after_a_lagging_left_needs_two_clearances_to_spare(program, second, side, is_served):
    """33 s less walk 7, clearance 12, yellow and red 5 are 9 s to spare, 34 s are 10 s: the clearances of the left turn
    (4.5 s) and of the through phase (5.5 s), less a tick. The program serves phase 4 exactly if there is no warning."""
    street = reading.street_of(toml_text.read(SHEET.format(second=second, side=side, through=75 - side)))
    found = warned(street)
    assert found == [] if is_served else "are skipped" in found[0] and "too short by 0.9 s; give each 1 s" in found[0]
    assert (greens(program, street, 4) > 0) is is_served
