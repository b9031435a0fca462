"""The least change of splits, and the downloads from one plan to another."""

import itertools
import json
import random
import subprocess

import pytest

from streettools.cabinet.messages import OCTETS, SET, Reply
from streettools.plan import addresses, fix, kept_text, loads, names, pattern_rules, reading, rules, sending
from streettools.shared.cells import differing, with_cells
from streettools.shared.oids import OWN
from streettools.shared.tables import Tables

from .random_tables import cells_of

NOBODY = names.Intersection()
TWO = [["phase", it, 21, 0] for it in (1, 3, 5, 7)] + [["sequence", 1, 1, "0204"], ["sequence", 1, 2, "0608"]]
"""Two phases in each ring: main street 2 and 6, side street 4 and 8."""


def tables_with(*cells: list) -> Tables:
    """Returns std8 with cells."""
    return with_cells(Tables("std8"), cells)


def keeps(tables: Tables) -> bool:
    """Tells whether the patterns of tables keep rules 17 to 19."""
    return not any([*pattern_rules.rule_17(tables), *pattern_rules.rule_18(tables), *pattern_rules.rule_19(tables)])


def changed(tables: Tables, pattern: int = 1) -> tuple[Tables, int]:
    """Returns the tables after the least change, and its seconds."""
    new = tables.copy()
    change = fix.least_change(tables, pattern, NOBODY)
    fix.apply(new, change)
    return new, sum(abs(change.after[it] - change.before[it]) for it in change.after)


def test_seconds_move_from_a_phase_that_has_some_to_spare():
    """Phase 4 needs 24.5 s (walk 7, clearance 12, 5.5 s behind) and has 20; 5 s come from phase 3, which needs 10: 10 s
    of change."""
    new, seconds = changed(tables_with(["split", 1, 3, 3, 25], ["split", 1, 4, 3, 20]))
    assert seconds == 10 and [new.split(1, it, 3) for it in (3, 4)] == [20, 25] and not rules.broken(new)


def test_a_shorter_cycle_takes_from_all_what_they_can_spare():
    """80 s in place of 90: each ring gives 10 s, which is the least that can be."""
    new, seconds = changed(tables_with(["pattern", 1, 2, 80]))
    assert seconds == 20 and not rules.broken(new)


def test_a_cycle_that_is_too_short_is_told_with_the_least():
    """The side needs 10 s for 3 and 25 s for 4; the main street 10 s for 1, and 28 s (3 and 19, and 5.5 behind, rounded
    up): 73 s."""
    with pytest.raises(
        fix.NoChange, match="no splits keep the rules in a cycle of 60 s; it needs a cycle of at least 73 s"
    ):
        fix.least_change(tables_with(["pattern", 1, 2, 60]), 1, NOBODY)


def test_no_smaller_change_keeps_the_rules():
    """Against all splits of two phases in each ring, over random times, cycles and orders: none with less change keeps
    rules 17 to 19."""
    dice = random.Random(3)
    tried = 0
    for _ in range(12):
        cells = [["phase", it, 4, dice.randint(4, 12)] for it in (2, 4, 6, 8)] + [
            ["phase", it, 3, dice.randint(0, 14)] for it in (2, 4, 6, 8)
        ]
        cells += [["split", 1, it, 3, dice.randint(5, 45)] for it in (2, 4, 6, 8)] + [
            ["phase", 4, 9, dice.randint(0, 25)]
        ]
        cycle = dice.randint(55, 75)
        order = (
            [["sequence", 1, ring, text] for ring, text in ((1, "0402"), (2, "0806"))] if dice.random() < 0.5 else []
        )
        tables = tables_with(*TWO, *cells, ["pattern", 1, 2, cycle], *order)
        if any(it.rule not in (17, 18, 19) for it in rules.broken(tables)):
            continue
        best = None
        before = {it: tables.split(1, it, 3) for it in (2, 4, 6, 8)}
        for main in range(cycle + 1):
            times = {2: main, 6: main, 4: cycle - main, 8: cycle - main}
            cost = sum(abs(times[it] - before[it]) for it in times)
            if (best is None or cost < best) and keeps(
                with_cells(tables, [["split", 1, it, 3, time] for it, time in times.items()])
            ):
                best = cost
        tried += 1
        if best is None:
            with pytest.raises(fix.NoChange):
                fix.least_change(tables, 1, NOBODY)
        else:
            new, seconds = changed(tables)
            assert seconds == best and not rules.broken(new)
    assert tried > 5


def test_no_smaller_change_keeps_the_rules_with_left_turns():
    """Against all splits of the main street's side, with leading and lagging left turns, where the pair begins at two
    moments."""
    for first, second in itertools.product(("0102", "0201"), ("0506", "0605")):
        cells = [["sequence", 1, 1, first + "0304"], ["sequence", 1, 2, second + "0708"]]
        tables = tables_with(
            *cells,
            ["split", 1, 1, 3, 22],
            ["split", 1, 2, 3, 26],
            ["split", 1, 5, 3, 14],
            ["split", 1, 6, 3, 34],
            ["pattern", 1, 2, 93],
        )
        best = None
        for left, other in itertools.product(range(8, 25), repeat=2):
            times = {1: left, 2: 48 - left, 5: other, 6: 48 - other}
            cost = sum(abs(time - tables.split(1, it, 3)) for it, time in times.items())
            if (best is None or cost < best) and keeps(
                with_cells(tables, [["split", 1, it, 3, time] for it, time in times.items()])
            ):
                best = cost
        new, seconds = changed(tables)
        assert not rules.broken(new) and (best is None or seconds <= best)
        side = sum(new.split(1, it, 3) for it in (1, 2))
        assert side != 48 or seconds == best


def test_a_partner_costs_nothing():
    """The time of a partner follows the phase that it faces."""
    tables = tables_with(["split", 1, 3, 3, 25], ["split", 1, 4, 3, 20])
    change = fix.least_change(tables, 1, names.Intersection(partners=[7, 8]))
    assert "10 s of change" in change.words(names.Intersection(partners=[7, 8]))


def street_with(*cabinets: list) -> reading.Street:
    """Returns a street of cabinets with cells."""
    return reading.Street(
        {"version": 1, "rounds": 40, "ticks": 100, "cabinets": [{"cells": list(it)} for it in cabinets]}, names.Names()
    )


def brought(old: Tables, found: list[list]) -> Tables:
    """Returns the tables after downloads, each of which must keep the rules."""
    for cells in found:
        assert 1 <= len(cells) <= 768
        new = with_cells(old, cells)
        assert not rules.broken(new, old)
        old = new
    return old


def test_a_small_change_is_one_download():
    """Only the cells that differ."""
    new = tables_with(["phase", 2, 8, 43], ["pattern", 1, 3, 20])
    assert loads.downloads(Tables("std8"), new) == [[["phase", 2, 8, 43], ["pattern", 1, 3, 20]]]
    assert loads.downloads(new, new) == []


def test_a_great_change_goes_in_several_downloads_that_keep_the_rules():
    """More than 768 cells differ: thirty splits that no pattern has yet, and patterns for them."""
    cells = [
        ["split", it, phase, column, value]
        for it in range(2, 32)
        for phase in range(1, 9)
        for column, value in ((3, 20), (4, 4), (5, int(phase in (2, 6))))
    ]
    cells += [["split", it, phase, 4, 3] for it in range(2, 32) for phase in range(9, 17)]
    cells += [["split", it, phase, 3, 40 if phase % 2 == 0 else 15] for it in range(2, 32) for phase in range(1, 9)]
    cells += [
        ["pattern", it, column, value] for it in range(2, 32) for column, value in ((2, 110), (3, it), (4, it), (5, 1))
    ]
    new = tables_with(*cells)
    assert not rules.broken(new) and len(differing(Tables("std8"), new)) > 768
    found = loads.downloads(Tables("std8"), new)
    assert len(found) > 1 and not differing(brought(Tables("std8"), found), new)


def test_random_plans_are_reached_from_each_other():
    """Tables of the same rings with other times and patterns: each download on the way keeps the rules."""
    reached = 0
    for seed in range(40):
        dice = random.Random(seed)
        old = with_cells(Tables("std8"), cells_of(dice))
        cells = [it for it in cells_of(random.Random(seed)) if it[0] != "phase" or it[2] not in (21, 22, 23)]
        new = with_cells(
            old, [[*it[:-1], it[-1] + 1] if it[0] == "phase" and it[2] in (4, 5, 6) else it for it in cells]
        )
        new = with_cells(new, [["pattern", it, 2, 0] for it in new.patterns()[:1]])
        if not rules.broken(old) and not rules.broken(new, old):
            assert not differing(brought(old, loads.downloads(old, new)), new)
            reached += 1
    assert reached > 10


def test_rings_that_change_need_flash():
    """Rule 21, in words; with the word that the cabinets flash the download is written."""
    new = tables_with(*TWO, ["pattern", 1, 2, 0])
    with pytest.raises(loads.NoWay, match="turns phase 1 off; a cabinet accepts that only in flash"):
        loads.downloads(Tables("std8"), new)
    assert len(loads.downloads(Tables("std8"), new, flash=True)) == 1


class Noted:
    """An agent that takes every Set, and notes it; a Get has the outcome that is due, or the value that was set."""

    def __init__(self):
        self.sets, self.values = [], {}

    def ask(self, kind, bindings):
        """Returns the answer to a message."""
        own = (*OWN, 1)
        if kind == SET:
            self.sets.append([(".".join(map(str, name)), it) for name, it in bindings])
            self.values |= {name: it for name, it in bindings if name[: len(own)] != own}
            last = bindings[min(1, len(bindings) - 1)][0][len(own)]
            self.values[*own, 7, 0] = {5: 3, 6: 4}.get(last, 1)  # verified, accepted, else staged
            return Reply(1, 0, 0, [])
        found = [(name, self.values.get(name, 0)) for name, _ in bindings]
        octets = [(name, OCTETS, it) if isinstance(it, bytes) else (name, 2, bytes([it])) for name, it in found]
        return Reply(1, 0, 0, octets)


def test_the_sets_of_a_download_are_begin_parts_total_and_finish():
    """Cells by the names of their objects, 24 to a part, as docs/CLIENTS.md has the dialogue."""
    cells = [["phase", 2, 8, 43], ["sequence", 2, 1, "0201"], ["unit", 3, 60],
             *(["split", 2, it, 3, 20] for it in range(1, 17)),
             *(["pattern", 2, it, 1] for it in (2, 3, 4, 5)), ["preempt", 1, 13, "0206"], ["unit", 1, 3]]  # fmt: skip
    noted = Noted()
    load = sending.Load(1, "Main", addresses.Place("127.0.0.1", 10161), Tables(), Tables())
    assert sending.Device(load, noted).download(cells, 7) == 7
    own, asc = "1.3.6.1.4.1.32473.1", "1.3.6.1.4.1.1206.4.2.1"
    sets = noted.sets
    assert len(sets) == 5 and sets[0] == [(f"{own}.1.2.0", 7)]
    assert sets[1][:5] == [
        (f"{own}.1.3.0", 7), (f"{own}.1.4.0", 1), (f"{asc}.1.2.1.8.2", 43), (f"{asc}.7.3.1.3.2.1", b"\2\1"),
        (f"{own}.3.2.0", 60),
    ]  # fmt: skip
    assert sets[2] == [(f"{own}.1.3.0", 7), (f"{own}.1.4.0", 2), (f"{asc}.4.2.0", 3)]
    assert sets[3:] == [[(f"{own}.1.3.0", 7), (f"{own}.1.5.0", 2)], [(f"{own}.1.3.0", 7), (f"{own}.1.6.0", 1)]]


def test_the_program_takes_each_download(program):
    """A run with them: every one is accepted."""
    old, new = street_with([]), street_with(
        [["phase", 2, 8, 43], ["pattern", 2, 2, 90], ["pattern", 2, 4, 1], ["pattern", 2, 5, 1]]
    )
    scenario = old.scenario | {"loads": loads.between(old, new, 1, flash=False)}
    trace = subprocess.run(
        [program, "run"], input=json.dumps(scenario).encode(), capture_output=True, check=True
    ).stdout
    assert b"\nL 1 1 accepted 1\n" in trace and b"refused" not in trace


def test_splits_under_one_name_get_names_of_their_own_when_they_differ():
    """Phase 1 gives a second to phase 2; 5 and 6 keep theirs. Times that stay equal stay under one name."""
    times = {"1 5": 13, "2 6": 41, "4 8": 36}
    assert kept_text.put(times, {1: 12, 2: 42}, []) == {"1": 12, "5": 13, "2": 42, "6": 41, "4 8": 36}
    assert kept_text.put(times, {1: 12, 5: 12, 2: 42, 6: 42}, []) is None and times == {"1 5": 12, "2 6": 42, "4 8": 36}
