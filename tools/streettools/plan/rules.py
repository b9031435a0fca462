"""The 22 rules of tables (docs/SCENARIO.md): all that are broken, by rule and row. The first of them is the one that
the program tells."""

from collections.abc import Callable
from dataclasses import dataclass

from ..shared.tables import Tables
from . import pattern_rules as pattern
from . import street_rules as street


@dataclass(frozen=True, order=True)
class Broken:
    """A rule is broken in a row: a phase, a sequence, a pattern, a preempt, or 0."""

    rule: int
    row: int


LISTS = (street.rule_1, street.rule_2, street.rule_3, street.rule_4, street.rule_5, street.rule_6)
OTHERS = (
    street.rule_10,
    street.rule_11,
    street.rule_12,
    street.rule_13,
    street.rule_20,
    street.rule_22,
    pattern.rule_14,
    pattern.rule_15,
)
LAID = (pattern.rule_16, pattern.rule_17, pattern.rule_18, pattern.rule_19)


def number_of(rule: Callable) -> int:
    """Returns the number of a rule."""
    return int(rule.__name__.removeprefix("rule_"))


def broken(tables: Tables, before: Tables | None = None) -> list[Broken]:
    """Returns all rules that tables break, by rule and row. Where the rings don't hold together, what is asked of
    barriers, orders and patterns isn't looked at. `before` are the tables that a download finds in force."""

    def rows(*rules: Callable) -> list[Broken]:
        return [Broken(number_of(rule), row) for rule in rules for row in rule(tables)]

    found, rings = rows(*OTHERS), rows(*LISTS)
    rings += rows(street.rule_8) + ([] if rings else rows(street.rule_7))
    rings += [] if rings else rows(street.rule_9)
    found += rings or rows(*LAID)
    if before is not None:
        found += [Broken(21, row) for row in street.rule_21(tables, before)]
    return sorted(found)
