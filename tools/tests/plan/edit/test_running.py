"""Runs of the program under the editor. The greens of a settled run are those of the plan, which are computed here by
hand: a coordinated green begins at the offset in each cycle, and ends with yellow and red clearance before its slot
ends."""

from streettools.plan.edit import running, versions
from streettools.plan.edit.changes import Change
from streettools.plan.edit.running import Asked

from .conftest import SHEET

SEVEN = 7 * 36_000
ASKED = Asked(1, 1, SEVEN, 6, True, "all")


def shown(program, history, asked=ASKED):
    """Returns a run of the current version."""
    return running.run(str(program), history.now.plan, asked)


def whole(spans, found):
    """Returns the spans that are neither cut at the beginning nor at the end of what is shown."""
    return [(low, high) for low, high in spans if low > found["start"] and high < found["end"]]


def test_a_settled_run_has_the_greens_of_the_plan(program):
    """Phase 2 of the first intersection has a slot of 30 s, less 4 s of yellow and 1.5 s of red: 24.5 s from each
    multiple of 90 s on; that of the T 43 s less 5.5 s, from 40 s on."""
    found = shown(program, versions.begun(SHEET))
    assert found["numbers"] == [1, 2]
    first, other = (whole(it, found) for it in found["greens"][0])
    assert {(low % 900, high - low) for low, high in first} == {(0, 245)}
    assert {(low % 900, high - low) for low, high in other} == {(400, 375)}
    assert all(it is not None for it in found["on"])


def test_bands_of_a_settled_run_are_as_wide_as_the_planned_ones(program):
    """Outbound needs 20 s: with the offset 20 the T's green from 20 to 57.5 s has all of the first one's, 24.5 s."""
    history = versions.begun(SHEET)
    history.change(Change("offset", 2, value=20))
    found = shown(program, history)
    planned = running.bands(str(program), history.now.plan, ASKED)["bands"]
    assert planned[0] == [0, 245]
    bands = whole(found["bands"][0], found)
    assert {(low % 900, high - low) for low, high in bands} == {(0, 245)}


def test_a_plan_that_breaks_a_rule_is_answered_with_the_line_of_the_program(program):
    history = versions.begun(SHEET)
    history.change(Change("split", 1, phase=1, value=5, snap=False))
    assert shown(program, history) == {"refused": "scenario: cabinet 1 breaks rule 18 at row 1"}
    assert running.bands(str(program), history.now.plan, ASKED) == {
        "refused": "scenario: cabinet 1 breaks rule 18 at row 1"
    }


def test_persons_get_walks_only_if_they_call(program):
    history = versions.begun(SHEET)
    without = shown(program, history)
    people = shown(program, history, Asked(1, 1, SEVEN, 6, True, "people"))
    assert not without["walks"][4] and people["walks"][4]
    low, high = next((low, high) for letter, low, high in people["walks"][4] if letter == "W" and low > people["start"])
    assert high - low == 70


def test_the_schedule_commands_the_pattern_if_none_is_chosen(program):
    text = SHEET.replace("[master]", "schedule = [{at = 07:03:00, pattern = 1}]\n\n[master]")
    found = shown(program, versions.begun(text), Asked(1, 0, SEVEN, 10, False, "all"))
    starts = [low - found["start"] for low, _ in found["greens"][0][0]]
    assert len(starts) > 3 and "refused" not in found


def test_events_of_the_sheet_happen_at_their_times_of_day(program):
    """The vehicle on phase 4 at 07:02 brings the only green of phase 4 within the first five minutes."""
    text = SHEET + (
        '\n[events]\ninputs = [{at = 07:02:00, cabinet = "Elm & Oak", veh = 4, on = true},\n'
        '  {at = 07:02:05, cabinet = "Elm & Oak", veh = 4, on = false}]\n'
    )
    found = shown(program, versions.begun(text), Asked(1, 1, SEVEN, 5, True, "sheet"))
    greens = [low for letter, low, _ in found["lights"][4] if letter == "G"]
    assert len(greens) == 1 and SEVEN + 1200 <= greens[0] <= SEVEN + 1200 + 900
