"""Which pattern a section has by the traffic that is counted.

docs/FIELD-FILE.md, "Which pattern".
"""

from dataclasses import dataclass
from typing import Any

from model.bank import BankItem
from model.scenario import Scenario
from model.schedule import master_clock


@dataclass(frozen=True)
class Step:
    """A step to a level: the volume from which it is reached, that below which it is left, and the pattern of the
    level."""

    up: int
    down: int
    pattern: int


@dataclass(frozen=True)
class Rule:
    """How the pattern of a section follows the traffic: level 0 has the pattern `base`, each step leads to the next
    level."""

    section: int
    base: int
    steps: list[Step]

    def pattern(self, level: int) -> int:
        """Returns the pattern of a level."""
        return self.steps[level - 1].pattern if level else self.base


def level_after(rule: Rule, level: int, volume: int) -> int:
    """Returns the level after a period with a volume."""
    reached = [it for it, step in enumerate(rule.steps, 1) if it > level and step.up <= volume]
    if reached:
        return max(reached)
    if level and volume < rule.steps[level - 1].down:
        return max((it for it in range(1, level) if rule.steps[it - 1].down <= volume), default=0)
    return level


def volume(scenario: Scenario, section: int, edges: dict[BankItem, list[int]], rounds: range) -> int:
    """Returns the edges that count in some rounds at the cabinets of a section."""
    own = (told for item, told in edges.items() if scenario.cabinets[item.cabinet - 1].section == section)
    return sum(sum(told[rounds.start : rounds.stop]) for told in own)


def entries(
    scenario: Scenario, period: int, rules: list[Rule], edges: dict[BankItem, list[int]]
) -> list[dict[str, Any]]:
    """Returns the entries of the schedule: the pattern of each section in round 1, and in the first round after each
    full period if the pattern has changed."""

    def entry(number: int, rule: Rule, level: int) -> dict[str, Any]:
        return {"second": master_clock(scenario, number) // 10, "section": rule.section, "pattern": rule.pattern(level)}

    levels = dict.fromkeys(rules_by_section(rules), 0)
    made = [entry(1, rule, 0) for rule in rules]
    for first in range(1, scenario.rounds - period + 1, period):
        for rule in rules:
            before = levels[rule.section]
            now = level_after(rule, before, volume(scenario, rule.section, edges, range(first, first + period)))
            levels[rule.section] = now
            if rule.pattern(now) != rule.pattern(before):
                made.append(entry(first + period, rule, now))
    return made


def rules_by_section(rules: list[Rule]) -> list[int]:
    """Returns the sections of some rules."""
    return [rule.section for rule in rules]
