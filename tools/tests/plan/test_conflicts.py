"""Phases that are green together by their rings, against the usual numbering and the conflict card; what rule 19 says
of a lead-lag plan."""

import io

import pytest
from streettools.plan import book, book_reading, check, names, sources, toml_text, writing
from streettools.plan.findings import Level

from .conftest import TOP, plan

SWAPPED = """
[[intersection]]
name = "Depot"
rings = ["1 2 | 3 8", "6 5 | 7 4"]
"""


def found_in(text: str) -> list[str]:
    """Returns the errors and warnings of a sheet."""
    source = sources.source_of("street.toml", text.encode(), names.Names)
    return [str(it) for it in check.findings(source, "no program") if it.level is not Level.NOTE]


def test_pairs_that_cross_by_the_usual_numbering_are_dangerous():
    """3 with 4, and 7 with 8; 3 with 7, and 8 with 4, are usual. The pairs on the other side are usual."""
    found = found_in(SWAPPED)
    assert [it.split(" may be")[0] for it in found] == [
        "Depot: warning (dangerous): phase 3 and phase 4",
        "Depot: warning (dangerous): phase 7 and phase 8",
    ]


def test_a_main_street_that_is_swapped_is_dangerous_too():
    """1 with 2, and 5 with 6."""
    found = found_in('[[intersection]]\nrings = ["1 6 | 3 4", "2 5 | 7 8"]\n')
    assert [it.split(" may be")[0].split(": ")[2] for it in found] == ["phase 1 and phase 2", "phase 5 and phase 6"]


def test_usual_rings_and_partners_have_no_warning():
    """Eight phases, a T, split phasing, a phase above 8."""
    path = TOP / "scenarios/sheets/main-street.toml"
    assert found_in(path.read_text()) == []


def test_a_card_that_the_rings_contradict_is_an_error_with_both_sequences():
    """A list of four phases has six pairs, of which 1 with 5 and 2 with 5 are in it and together."""
    sheet = '[[intersection]]\nname = "A"\nconflicts = [[1, 2, 5], [3, 4]]\n[intersection.sequence]\n2 = {}\n'
    found = found_in(sheet.replace("{}", '["2 1 | 3 4", "5 6 | 7 8"]'))
    assert found[0] == (
        "A: error: the card `conflicts` has [1, 5], but phase 1 and phase 5 may be green together, between the same "
        "barriers (1 2 with 5 6 in sequence 1; 2 1 with 5 6 in sequence 2): draw a barrier between them in `rings`, or "
        "both in one ring"
    )
    assert found[1].startswith("A: error: the card `conflicts` has [2, 5], but ") and len(found) == 2


def test_a_card_is_the_authors_word_on_an_unusual_numbering():
    """What it doesn't have is only worth a look; what it has is an error. A phase that is off is named."""
    found = found_in(SWAPPED + "conflicts = [[7, 8], [2, 9]]\n")
    assert found[0].startswith("Depot: error: the card `conflicts` has [7, 8]")
    assert found[1] == (
        "Depot: warning (probably a mistake): the card `conflicts` names 9, not enabled here: check the numbers"
    )
    assert found[2] == (
        "Depot: warning (worth a look): phase 3 and phase 4 may be green together by the rings; in the usual numbering "
        "they cross (the card `conflicts` doesn't have the pair)"
    )


@pytest.mark.parametrize(
    ("card", "words"),
    [
        ("[3, 8]", "3 is not a pair of phases: write [[3, 8], [4, 7]]"),
        ('"3 8"', "'3 8' is not a list of pairs of phases, as [[3, 8], [4, 7]]"),
        ("[[3, 17]]", "[3, 17] has numbers that are not phases 1 to 16, or a phase twice"),
        ("[[3, 3]]", "[3, 3] has numbers that are not phases 1 to 16, or a phase twice"),
    ],
)
def test_a_card_that_cant_be_read_is_an_error(card, words):
    """With the form that is expected."""
    assert found_in(f"[[intersection]]\nconflicts = {card}\n") == [f"intersection 1, conflicts: error: {words}"]


def test_cards_and_widths_come_back_from_names_sheets_and_workbooks():
    """As they were written."""
    sheet = {"intersection": [{"conflicts": [[3, 4], [7, 8]], "phase": {"2": {"speed": 40, "width": 60}}}]}
    street = sources.source_of("a.toml", toml_text.text(sheet).encode(), names.Names).street
    assert names.read(names.text(street.names)) == street.names
    assert writing.sheet_of(street)["intersection"] == sheet["intersection"]
    out = io.BytesIO()
    book.write(writing.sheet_of(street), out)
    assert book_reading.read(out.getvalue())[0]["intersection"] == sheet["intersection"]


def test_a_sheet_that_contradicts_its_card_makes_no_scenario(tmp_path):
    """The command refuses it in the words of the check."""
    path = tmp_path / "street.toml"
    path.write_text("[[intersection]]\nconflicts = [[2, 6]]\n")
    ran = plan("scenario", path)
    assert ran.returncode == 2 and not ran.stdout and b"the card `conflicts` has [2, 6]" in ran.stderr


LEAD_LAG = """
[[intersection]]
name = "Depot"
[intersection.coordination]
correction = "shortway"
[intersection.phase]
"2 6" = {walk = 7, ped_clear = 14, yellow = 4.3, red_clear = 1.5}
[intersection.sequence]
1 = ["1 2 | 3 4", "6 5 | 7 8"]
[intersection.pattern.1]
cycle = 110
splits = {1 = 14, 2 = 38, 3 = 18, 4 = 40, 5 = 24, 6 = 28, 7 = 18, 8 = 40}
"""


def test_rule_19_says_whose_seconds_what_a_skip_is_and_the_nearest_limit():
    """Phase 6 starts the cycle and ends its green at 28 - 5.8 = 22.2 s; phase 2 starts at 14 s. Both are green for
    8.2 s: with walk 7 + 14 = 21 s no limit passes. From 10 s to 38 - 5.8 = 32.2 s they are for 22.2 s: a skip of 3 s
    leaves 19.2 s, and one of 1.2 s leaves 21 s."""
    refused = found_in(LEAD_LAG)
    assert "8.2 s" in refused[0] and refused[0].endswith(
        "; make the splits of 2 and 6 so long that this green has 16 s more (as --fix does)"
    )
    lagging = LEAD_LAG.replace("1 = 14, 2 = 38", "1 = 10, 2 = 42").replace("5 = 24, 6 = 28", "5 = 14, 6 = 38")
    near = found_in(lagging)
    assert near[0] == (
        "Depot: error, rule 19: pattern 1 coordinates phase 2 and phase 6: from local zero, the later of their starts, "
        "both are green for 22.2 s, but while coordination corrects its offset, a cycle may be shortened by "
        "skip_limit, 3 s (a skip): 19.2 s of this green are left then, and phase 2 needs walk 7 + "
        "flashing don't walk 14 = 21 s; make skip_limit 1.2 s or less, or the splits of 2 and 6 so long that "
        "this green has 2 s more (as --fix does)"
    )
