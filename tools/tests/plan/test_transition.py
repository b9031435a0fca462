"""How long a change of plan takes: against the independent model, and by hand."""

import itertools

import pytest
from model import counter
from model.promises import offset
from model.tables import BASES
from streettools.plan import check, names, rules, sources, transition
from streettools.shared.plans import Correction
from streettools.shared.tables import Tables


@pytest.mark.parametrize("mode", [2, 3, 4])
def test_cycles_and_the_longest_cycle_are_those_of_the_model(mode):
    """For each target, with limits of several sizes; a clock that drifts takes twice as many."""
    for cycle, dwell, add, skip in itertools.product((300, 901), (1, 100), (7, 50), (3, 30)):
        may = counter.Correction(mode, dwell, add, skip)
        most = max(offset.needed(may, cycle, target) for target in range(cycle))
        by = Correction(mode, dwell, add, skip)
        assert transition.most_cycles(by, cycle, False) == most
        assert transition.most_cycles(by, cycle, True) == 2 * most
        assert transition.longest_cycle(by, cycle) == offset.longest_cycle(may, cycle)


@pytest.mark.parametrize("base", ["std8", "max8"])
def test_a_pickup_takes_no_longer_than_the_model_says(base):
    """The tables of both bases."""
    assert transition.pickup_bound(Tables(base)) == offset.pickup_bound([BASES[base]])


SHEET = """
schedule = [
  {at = 06:30:00, pattern = 2},
  {at = 09:30:00, pattern = "free"},
]
[[intersection]]
name = "Grant St"
clock = 06:29:00
[intersection.coordination]
correction = "shortway"
[intersection.pattern.1]
cycle = 0
[intersection.pattern.2]
cycle = 110
splits = {1 = 18, 2 = 37, 3 = 18, 4 = 37, 5 = 18, 6 = 37, 7 = 18, 8 = 37}
"""


def notes_of(text: str) -> list[str]:
    """Returns the lines of a check about changes of plan."""
    source = sources.source_of("street.toml", text.encode(), names.Names)
    lines = [str(it) for it in check.findings(source, "no program")]
    return [it for it in lines if "offset" in it]


def test_a_change_of_plan_has_its_cycles_and_minutes():
    """In a cycle of 110 s that is 41.2 s late, 14 skips of 3 s or 14 adds of 5 s are needed (68.8 / 5). Each cycle
    lasts 115 s at most, and one more passes before local zero: 15 x 115 s are 28 min 45 s, from 6:30 until 6:58:45.

    The coordinated phases are green for 37 - 5.5 = 31.5 s: so much may be added, and a skip of 12.5 s leaves the 19 s
    of the crossing. 9.6 s late, that are 4 skips of 3 s or 4 adds of 31.5 s, and 5 x 141.5 s are 11 min 48 s; 78.6 s
    late, that are 7 skips of 12.5 s or 7 adds of 5 s (31.4 / 5), and 8 x 122.5 s are 16 min 20 s."""
    told = notes_of(SHEET)
    assert told[0] == (
        "Grant St: note: a change to pattern 2 takes up to 14 cycles (29 min) to come onto its offset (shortway, "
        "add_limit 5 s, skip_limit 3 s); the rules also allow add_limit = 31.5, 4 cycles (12 min); skip_limit = 12.5, "
        "7 cycles (17 min)"
    )
    assert told[1] == (
        "schedule: note: at 06:30:00 pattern 2: left undisturbed, every intersection is on its offset by 06:58:45 at "
        "the latest; that takes 14 cycles"
    )


@pytest.mark.parametrize(
    ("skip", "words"),
    [("3", "each takes 14 cycles"), ("12", "Grant St takes longest, 14 cycles")],
)
def test_an_intersection_is_named_only_if_it_takes_longer_than_another(skip, words):
    """A second intersection with a skip of 3 s takes the same 14 cycles; with 12 s, fewer."""
    second = SHEET[SHEET.index("[[intersection]]") :].replace("Grant St", "Oak St")
    second = second.replace('"shortway"', f'"shortway"\nskip_limit = {skip}')
    told = [it for it in notes_of(SHEET + second) if "left undisturbed" in it]
    assert told[0].endswith(words)


def test_a_change_that_the_next_one_overtakes_is_worth_a_look():
    """20 minutes are less than 28 min 45 s."""
    told = notes_of(SHEET.replace("09:30:00", "06:50:00"))
    assert told[0] == (
        "schedule: warning (worth a look): at 06:30:00 pattern 2 may not come onto its offset at Grant St before the "
        "next change, 20 min later: it takes up to 14 cycles (29 min)"
    )


def test_a_clock_that_gains_is_promised_nothing_by_other_corrections():
    """Only shortway follows it."""
    drifting = SHEET.replace("clock = 06:29:00", "clock = 06:29:00\ngain = 36000")
    assert "28 cycles" in notes_of(drifting)[0]
    told = notes_of(drifting.replace('"shortway"', '"add only"'))
    assert told == [
        "Grant St: note: no time is promised in which it comes onto its offset: its clock gains, and only the "
        'correction "shortway" follows that'
    ]


@pytest.mark.parametrize("name", ["add_limit", "skip_limit"])
def test_the_limits_that_are_named_are_the_greatest_that_pass(name):
    """The standard table keeps rule 19 with them, and breaks it with a tick more."""
    tables = Tables()
    most = transition.greatest_limits(tables)[name]
    for limit, broken in ((most, []), (most + 1, [rules.Broken(19, 1)])):
        tables.put([["unit", transition.COLUMNS[name], limit]])
        assert rules.broken(tables) == broken
