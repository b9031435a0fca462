"""A weakened statement of a promise is noticed: eight that a fixed seed draws; `edits/weaken` tries forty."""

import random

from streettools.promises import record, statement, weaken

DEFINITIONS = """-- a definition
use Rattle.std.specs.Prelude.{ℕ}

abbrev pub IsLess : ℕ → ℕ → Type 0
IsLess m n = m < n

pub record Ends (n : ℕ) : Type 0 where
  pub whole : (k : ℕ) → k ≡ n
      → k < 2
  pub both : (n ≡ 1) × (n ≡ 2)
"""


def drawn() -> list[str]:
    """Returns what is drawn from in these definitions."""
    return list(weaken.units(statement.definitions(DEFINITIONS), DEFINITIONS))


def test_a_weakened_statement_changes_its_digest():
    tried = list(weaken.trials(record.TOP, 8, 2))
    assert [noticed for *_, noticed in tried] == [True] * 8
    assert len({unit for _, _, unit, _, _ in tried}) == 8


def test_a_unit_is_an_equation_or_a_field_with_all_its_rows():
    assert drawn() == [
        "IsLess m n = m < n\n",
        "  pub whole : (k : ℕ) → k ≡ n\n      → k < 2\n",
        "  pub both : (n ≡ 1) × (n ≡ 2)\n",
    ]


def test_each_way_to_weaken():
    ways = [weaken.weakened(unit, random.Random(1)) for unit in drawn()]
    assert ways == [
        ("< as ≤", "IsLess m n = m ≤ n\n"),
        ("< as ≤", "  pub whole : (k : ℕ) → k ≡ n\n      → k ≤ 2\n"),
        ("a conjunct dropped", "  pub both : (n ≡ 1)\n"),
    ]
    assert weaken.weakened("is_zero [] = false\n", random.Random(1)) == ("removed", "")
