"""Changes of a plan: what each does to the sheet and its text, and where the rules stop it. Expected values are
computed by hand from the sheet, or by the rules of docs/SCENARIO.md over whole tables."""

import random

import pytest
from streettools.plan import rules
from streettools.plan.edit import changes, edges, facts, versions
from streettools.plan.edit.changes import Change
from streettools.plan.layout import Layout
from streettools.shared.given import Wrong

from ..conftest import TOP
from .conftest import SHEET

MAIN = (TOP / "scenarios/sheets/main-street.toml").read_text()


def begun(text=SHEET):
    """Returns the versions of a sheet."""
    return versions.begun(text)


def lines_changed(before, after):
    """Returns the lines of a text that another one lacks, and those that are new."""
    old, new = before.split("\n"), after.split("\n")
    return [it for it in old if it not in new], [it for it in new if it not in old]


def splits(history, number, pattern=1):
    """Returns the splits of a pattern by phase, in seconds."""
    laid = Layout(history.now.plan.of(number), pattern)
    return {phase: laid.time(phase) // 10 for order in laid.orders for phase in order}


def test_an_offset_changes_one_line_and_keeps_its_comment():
    history = begun()
    assert history.change(Change("offset", 1, value=12)) == []
    assert lines_changed(SHEET, history.now.text) == (
        ["offset = 0                  # the master intersection"],
        ["offset = 12                  # the master intersection"],
    )
    assert history.now.label == "Elm & Oak, pattern 1: offset 0 to 12 s"


def test_an_offset_of_the_cycle_or_more_is_taken_modulo_the_cycle_and_rule_15_is_named():
    history = begun()
    (note,) = history.change(Change("offset", 1, value=95))
    assert "rule 15" in note and "95 s is 5 s" in note
    assert history.now.plan.of(1).pattern(1, 3) == 5


def test_an_edge_within_a_barrier_group_moves_time_between_two_phases():
    history = begun()
    history.change(Change("edge", 1, phase=1, value=2))
    assert splits(history, 1) == {1: 17, 2: 28, 3: 15, 4: 30, 5: 15, 6: 30, 7: 15, 8: 30}


def test_a_barrier_moves_in_both_rings_and_a_placeholder_phase_follows():
    history = begun()
    history.change(Change("edge", 1, phase=2, value=3))
    assert splits(history, 1) == {1: 15, 2: 33, 3: 12, 4: 30, 5: 15, 6: 33, 7: 12, 8: 30}
    history.change(Change("edge", 2, phase=2, value=1))
    assert splits(history, 2) == {1: 15, 2: 44, 4: 31, 6: 59, 8: 31}
    assert "splits = {1 = 15, 2 = 44, 4 = 31, 6 = 59}" in history.now.text


def test_a_split_below_the_minimum_service_stops_at_rule_18():
    """Phase 1 needs minimum green 5 + yellow 3.5 + red 1 = 9.5 s."""
    history = begun()
    (note,) = history.change(Change("split", 1, phase=1, value=5))
    assert splits(history, 1)[1] == 10 and splits(history, 1)[2] == 35
    assert note.startswith("stopped 5 s short of that: rule 18: ") and "give it 1 s more" in note


def test_without_stops_a_change_is_made_and_the_rule_is_broken():
    history = begun()
    assert history.change(Change("split", 1, phase=1, value=5, snap=False)) == []
    assert splits(history, 1)[1] == 5
    assert [it.rule for it in rules.broken(history.now.plan.of(1))] == [18]


@pytest.mark.parametrize("text", [SHEET, MAIN])
def test_the_limits_of_each_edge_are_where_the_rules_are_broken_first(text):
    """The rules of whole tables are the yardstick: none is broken at a limit, one is a second beyond it."""
    plan = begun(text).now.plan
    for number in plan.numbers:
        tables = plan.of(number)
        laid = Layout(tables, 1)
        for it in facts.chosen(plan, number, 1)["rings"]["edges"]:
            by = edges.shifts(laid, it["phase"])
            for far in (it["least"], it["most"]):
                assert not rules.broken(edges.moved(tables, laid, by, far))
            for far in (it["least"] - 1, it["most"] + 1):
                assert {one.rule for one in rules.broken(edges.moved(tables, laid, by, far))} & {17, 18, 19}
            assert it["left"].startswith("rule 1") and it["right"].startswith("rule 1")


def test_phases_that_change_places_get_a_sequence_with_bars():
    history = begun()
    history.change(Change("swap", 1, phase=3))
    assert '[intersection.sequence]\n2 = ["1 2 | 4 3", "5 6 | 7 8"]' in history.now.text
    assert "sequence = 2" in history.now.text
    assert Layout(history.now.plan.of(1), 1).orders == ((1, 2, 4, 3), (5, 6, 7, 8))
    history.change(Change("swap", 1, phase=4))
    assert Layout(history.now.plan.of(1), 1).orders == ((1, 2, 3, 4), (5, 6, 7, 8))
    assert "# the master intersection" in history.now.text


def test_an_order_that_leaves_the_coordinated_phases_too_little_is_refused_by_rule_19():
    """With 6 before 5 phase 6 ends at 30 s, less its clearance of 5.5 s, and phase 2 begins at 15 s: 9.5 s together."""
    history = begun()
    with pytest.raises(Wrong, match="rule 19: .* both are green for 9.5 s"):
        history.change(Change("swap", 1, phase=5))
    history.change(Change("swap", 1, phase=5, snap=False))
    assert [it.rule for it in rules.broken(history.now.plan.of(1))] == [19]


def test_a_sheet_that_leaves_its_pattern_to_the_standard_table_gets_one_with_what_changes():
    """The standard pattern 1 has 90 s: 15 s for each left turn and 30 s for each other phase."""
    history = begun("# nothing else\n[[intersection]]\nname = \"A\"\n[[intersection]]\nname = \"B\"\n")
    history.change(Change("offset", 2, value=9))
    assert history.now.text.endswith('name = "B"\n\n[intersection.pattern.1]\noffset = 9\n')
    history.change(Change("edge", 1, phase=1, value=2))
    assert "splits = {1 = 17, 2 = 28, 3 = 15, 4 = 30, 5 = 15, 6 = 30, 7 = 15, 8 = 30}" in history.now.text
    assert history.now.text.startswith("# nothing else\n")


def test_a_row_of_several_patterns_is_kept_as_far_as_it_can_be():
    text = SHEET.replace("[intersection.pattern.1]    # the morning", '[intersection.pattern."1 2"]')
    text = text.replace("splits = {1 = 15, 2 = 30, 3 = 15, 4 = 30, 5 = 15, 6 = 30, 7 = 15, 8 = 30}\n", "")
    history = begun(text)
    history.change(Change("offset", 1, 2, value=9))
    assert [it.pattern(2, 3) for it in history.now.plan.tables[:1]] == [9]
    assert history.now.plan.of(1).pattern(1, 3) == 0 and "# measured twice" in history.now.text


def test_phases_of_two_barrier_groups_dont_change_places():
    with pytest.raises(Wrong, match="phase 2 is the last of its ring in its barrier group"):
        begun().change(Change("swap", 1, phase=2))


def test_a_cycle_changes_all_intersections_and_keeps_shares_and_rules():
    """The shares of 90 s in 120 s: 15, 30, 15, 30 s are 20, 40, 20, 40 s."""
    history = begun()
    assert history.change(Change("cycle", 0, value=120)) == []
    assert splits(history, 1) == {1: 20, 2: 40, 3: 20, 4: 40, 5: 20, 6: 40, 7: 20, 8: 40}
    assert sum(splits(history, 2)[it] for it in (1, 2, 4)) == 120
    assert not rules.broken(history.now.plan.of(1)) and not rules.broken(history.now.plan.of(2))
    assert [it.pattern(1, 2) for it in history.now.plan.tables] == [120, 120]


def test_a_cycle_that_is_too_short_stops_at_the_shortest_one_that_keeps_the_rules():
    history = begun()
    (note,) = history.change(Change("cycle", 0, value=40))
    cycle = history.now.plan.of(1).pattern(1, 2)
    assert f"needs a cycle of {cycle} s, {cycle - 40} s more than that" in note
    assert not any(rules.broken(it) for it in history.now.plan.tables)
    with pytest.raises(Wrong, match="rules 17 to 19"):
        begun().change(Change("cycle", 0, value=cycle - 1, snap=False))


def test_one_intersection_may_have_another_cycle():
    history = begun()
    history.change(Change("cycle", 2, value=100))
    assert [it.pattern(1, 2) for it in history.now.plan.tables] == [90, 100]


def test_times_of_a_phase_limits_and_travel_are_typed():
    history = begun()
    history.change(Change("time", 1, phase=1, name="yellow", value=3.6))
    history.change(Change("time", 1, phase=2, name="walk", value=8))
    history.change(Change("limit", 1, name="add_limit", value=4))
    history.change(Change("travel", 1, value=21.5))
    _, new = lines_changed(SHEET, history.now.text)
    assert new == [
        "travel = 21.5                 # measured twice", "add_limit = 4", '2 = {name = "Elm eastbound", walk = 8}',
        "1 = {yellow = 3.6}",
    ]  # fmt: skip
    tables = history.now.plan.of(1)
    assert (tables.phase(1, 8), tables.phase(5, 8), tables.phase(2, 2), tables.unit(3)) == (36, 35, 8, 40)


@pytest.mark.parametrize(
    "change, words",
    [
        (Change("time", 1, phase=1, name="yellow", value=2.9), "rule 10"),
        (Change("time", 1, phase=1, name="yellow", value=99), "is not 0 to 25.5"),
        (Change("time", 1, phase=1, name="startup", value=1), "isn't a time that is edited here"),
        (Change("time", 2, phase=3, name="walk", value=1), "has no phase 3"),
        (Change("time", 2, phase=8, name="walk", value=1), "phase 8 is a placeholder phase"),
        (Change("limit", 1, name="add_limit", value=60), "rule 19"),
        (Change("offset", 1, value=300), "is not 0 to 255"),
        (Change("offset", 1, value=1.5), "isn't whole seconds"),
        (Change("offset", 3, value=1), "there is no intersection 3"),
        (Change("offset", 1, pattern=7, value=1), "has no pattern 7"),
        (Change("edge", 1, phase=4, value=1), "is the last of its ring"),
        (Change("edge", 1, phase=9, value=1), "isn't in the sequence"),
        (Change("edge", 1, phase=1, value=-200, snap=False), "would have a split of -185 s"),
        (Change("cycle", 0, pattern=9, value=80), "no intersection has pattern 9"),
        (Change("travel", 2, value=80), "the last intersection has no next one"),
        (Change("travel", 1, value=-1), "is not 0 to 3600"),
    ],
)
def test_what_cannot_be_changed_is_refused_in_words_and_leaves_the_sheet(change, words):
    history = begun()
    with pytest.raises(Wrong, match=words):
        history.change(change)
    assert len(history.versions) == 1


def test_undo_and_redo_go_back_and_forth_and_a_change_drops_what_was_undone():
    history = begun()
    history.change(Change("offset", 1, value=10))
    history.change(Change("offset", 1, value=20))
    history.undo()
    assert history.now.plan.of(1).pattern(1, 3) == 10
    history.undo()
    assert history.is_saved
    with pytest.raises(Wrong, match="nothing to undo"):
        history.undo()
    history.redo()
    number = history.now.number
    history.change(Change("offset", 2, value=30))
    with pytest.raises(Wrong, match="nothing to redo"):
        history.redo()
    assert len(history.versions) == 3
    with pytest.raises(versions.Behind):
        history.ask(number)


def test_a_change_that_changes_nothing_makes_no_version():
    history = begun()
    assert history.change(Change("offset", 1, value=0)) == [] and len(history.versions) == 1


def test_random_changes_keep_rules_comments_and_what_the_text_means():
    """After each change the text means the tables that were aimed at (`versions.read` reads it again), the rules are
    kept, and every comment is still there; the way back leads to the text as it was."""
    draw = random.Random(87)
    history = begun(MAIN)
    comments = [line for line in MAIN.split("\n") if line.startswith("#")]
    texts = [history.now.text]
    for _ in range(60):
        kind = draw.choice(("offset", "edge", "split", "swap", "travel", "time"))
        change = Change(
            kind, draw.randint(1, 4), draw.choice((1, 2)), draw.randint(1, 8), draw.choice(changes.TIMES),
            draw.randint(-9, 40) if kind != "edge" else draw.randint(-9, 9),
        )  # fmt: skip
        try:
            history.change(change)
        except Wrong:
            continue
        if history.now.text != texts[-1]:
            texts.append(history.now.text)
        assert not any(rules.broken(it) for it in history.now.plan.tables)
        assert all(line in history.now.text for line in comments)
    assert len(texts) > 20
    for text in reversed(texts[:-1]):
        history.undo()
        assert history.now.text == text
