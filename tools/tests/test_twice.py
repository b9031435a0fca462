"""The list of lemmas and definitions that are in the crates more than once."""

import pathlib

from streettools.twice.command import groups, main, saved

TOP = pathlib.Path(__file__).resolve().parents[2]

MOST = 660
"""How many lines of the crates may repeat others, as `tools/twice` counts them. Lower it after each removal."""

FIRST = """-- or with false
use Rattle.std.proofs.Common.{Bool, false, true, refl}

pub or-none : (b : Bool) → (b || false) ≡ b
or-none true = refl
or-none false = refl
"""
SAME = """use Rattle.std.proofs.Common.{refl, true, false, Bool}

no-right : (c : Bool) → (c || false) ≡ c
no-right true = refl
no-right false = refl
"""


def crates(top: pathlib.Path, **texts: str) -> pathlib.Path:
    """Returns a folder with one file of proofs for each crate."""
    for crate, text in texts.items():
        file = top / "crates" / crate / "proofs" / "Lemmas.antt"
        file.parent.mkdir(parents=True)
        file.write_text(text, encoding="utf-8")
    return top


def names(top: pathlib.Path) -> list[list[str]]:
    """Returns the groups of equal items, by their names."""
    return [[it.name for it in group] for group in groups(top)]


def test_items_with_other_names_are_equal(tmp_path):
    assert names(crates(tmp_path, one=FIRST, two=SAME)) == [["or-none", "no-right"]]


def test_items_that_use_different_lemmas_are_not_equal(tmp_path):
    other = SAME.replace("proofs.Common", "proofs.Other")
    assert names(crates(tmp_path, one=FIRST, two=other)) == []


def test_items_with_different_numbers_are_not_equal(tmp_path):
    one = "pub few : (n : ℕ) → n ≤ 4 → n ≤ 5\nfew n h = h\n"
    assert names(crates(tmp_path, one=one, two=one.replace("4", "3"))) == []


def test_answers_to_goals_are_not_compared(tmp_path):
    answer = "pub returns : goal.returns\nreturns c = c.ensures\n"
    assert names(crates(tmp_path, one=answer, two=answer)) == []


def test_the_command_prints_the_groups_and_the_lines_that_could_go(capsys):
    assert main(["--least", "3"]) == 0
    said = capsys.readouterr().out.splitlines()
    assert said[0].endswith(" times") and said[-1].endswith(" lines could go")


def test_no_further_lines_repeat_others():
    """If this fails: `tools/twice` shows the lemma that is there already. Import it from the lower crate."""
    assert sum(map(saved, groups(TOP))) <= MOST
