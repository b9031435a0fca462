"""The editor over random tables: what is drawn, what is changed, and where the rules stop it."""

import random

from streettools.plan import reading, rules, toml_text, writing
from streettools.plan.edit import changes, facts, versions
from streettools.plan.edit.changes import Change
from streettools.plan.reading import Street
from streettools.plan.names import Intersection, Names
from streettools.shared.given import Wrong

from ..random_tables import cells_of, wrong_cell

CASES = 12


def text_of(dice, wrong):
    """Returns the sheet of two intersections with random tables, of which one may break a rule."""
    cabinets = [{"cells": cells_of(dice)}, {"cells": cells_of(dice) + ([wrong_cell(dice)] if wrong else [])}]
    scenario = {"version": 1, "rounds": 1, "ticks": 10, "cabinets": cabinets}
    names = Names(intersections=[Intersection("A"), Intersection("B")])
    return toml_text.text(writing.sheet_of(Street(scenario, names)))


def changed_at_random(dice, history):
    """Makes a random change, which may be refused; returns whether it was made."""
    numbers, kind = list(history.now.plan.numbers), dice.choice(changes.KINDS)
    number = dice.choice(numbers)
    phases = history.now.plan.of(number).enabled() or [1]
    name = dice.choice(changes.TIMES if kind == "time" else changes.LIMITS)
    given = Change(kind, number, dice.choice(history.now.plan.patterns() or [1]), dice.choice(phases), name,
                   dice.randint(-20, 120), dice.random() < 0.7)  # fmt: skip
    before = {it: set(rules.broken(history.now.plan.of(it))) for it in numbers}
    try:
        history.change(given)
    except Wrong as wrong:
        assert "\n" not in str(wrong)
        return False
    if given.snap:
        for it in numbers:
            assert set(rules.broken(history.now.plan.of(it))) <= before[it], given
    return True


def test_random_tables_are_drawn_and_changed_and_the_rules_are_kept():
    """Also tables that break a rule: a change with stops breaks no rule that wasn't broken before."""
    dice, made = random.Random(87), 0
    for case in range(CASES):
        text = text_of(dice, case % 3 == 0)
        if reading.read_sheet(toml_text.read(text))[1]:
            continue
        history = versions.begun(text)
        for _ in range(8):
            made += changed_at_random(dice, history)
            plan = history.now.plan
            for number in plan.numbers:
                found = facts.facts(plan, number, dice.choice((*plan.patterns(), 48)))
                assert len(found["street"]) == len(plan.group(number))
    assert made > CASES
