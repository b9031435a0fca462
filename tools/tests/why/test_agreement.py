"""What is said of generated ticks and phases of the vectors' traces agrees with the letters of the trace's own lines,
and with what the model computes at each tick.

`WHY_TICKS=10000 pytest tools/tests/why/test_agreement.py` takes 10,000 (about a minute), with `WHY_ALL=1` over all
traces (some minutes).
"""

import bisect
import os
import random
from collections import defaultdict
from typing import NamedTuple

import pytest

from .conftest import TOP

from model import calls  # noqa: E402
from model.plan import plan, split_mode  # noqa: E402
from model.tables import enabled, rows  # noqa: E402
from streettools.why import replay  # noqa: E402
from streettools.why.reasons import Kind  # noqa: E402
from streettools.why.story import Watch  # noqa: E402

SEED = 20261201
COUNT = int(os.environ.get("WHY_TICKS", "500"))
ALL = "WHY_ALL" in os.environ
BYTES = 10**9 if ALL else 20_000 if COUNT > 500 else 12_000
"""Traces have at most so many bytes."""

COORDINATED = ("street", "coord-01", "coord-04", "coord-07")
"""Longer traces that are taken, too."""

FIRST = 5_000 if ALL else 1_500
"""Ticks are among the first so many."""

AHEAD = 3_000 if ALL else 400
"""So many ticks after the tick that is asked for are looked at."""

TRACES = sorted([*TOP.glob("vectors/whole/*.trace"), *TOP.glob("vectors/free/*.trace"),
                 *TOP.glob("tools/tests/look/traces/*.trace")])  # fmt: skip


class Tick(NamedTuple):
    """What the model has at a tick, kept for the comparison."""

    called: frozenset
    demand: frozenset
    mode: str
    bound: int | None
    counter: int
    tables: object
    began: dict


class Letters:
    """What a cabinet shows at each tick, by the letters of the trace's own lines."""

    def __init__(self, path, cabinet):
        lines = [line.split() for line in path.read_text().splitlines() if line.startswith(f"F {cabinet} ")]
        self.ticks = [int(words[2]) for words in lines]
        self.lines = lines

    def at(self, tick, phase, word=3):
        """Returns the letter of a phase at a tick: its colour, with word 4 its pedestrian signal."""
        return self.lines[bisect.bisect_right(self.ticks, tick) - 1][word][phase - 1]

    def run(self, tick, phase):
        """Returns the tick of the first line of those in a row with the letter of this tick."""
        place = bisect.bisect_right(self.ticks, tick) - 1
        letter = self.lines[place][3][phase - 1]
        while place and self.lines[place - 1][3][phase - 1] == letter:
            place -= 1
        return self.ticks[place]

    def next(self, tick, phase, is_green):
        """Returns the tick of the first line after a tick at which a phase is green, or isn't; None without one."""
        later = zip(self.ticks, self.lines)
        return next((at for at, words in later if at > tick and (words[3][phase - 1] == "G") is is_green), None)


def drawn():
    """Returns the ticks and phases that are asked for, by trace and cabinet: any ticks, and ticks around a green."""
    draw, found = random.Random(SEED), defaultdict(list)
    chosen = [path for path in TRACES if path.stat().st_size <= BYTES or path.stem in COORDINATED]
    texts = {path: replay.read(str(path)) for path in chosen}
    for _ in range(COUNT):
        path = draw.choice(chosen)
        number = draw.randint(1, len(texts[path].scenario.cabinets))
        tables = texts[path].scenario.cabinets[number - 1].tables
        phase = draw.choice(sorted(enabled(tables))) if draw.random() < 0.95 else draw.randint(1, 16)
        last = min(FIRST, texts[path].ticks)
        begins = [it for it in replay.Shown(texts[path], number, phase).begins if it <= last]
        tick = draw.randint(1, last)
        if begins and draw.random() < 0.6:
            tick = min(last, max(1, draw.choice(begins) + draw.randint(-400, 600)))
        found[path, number].append((phase, tick))
    return [(path, texts[path], number, asked) for (path, number), asked in sorted(found.items(), key=str)]


def seen_by_model(at):
    """Returns what the model has at a tick, by its own functions."""
    told, tables = at.past.told.calls, at.past.tables
    called = calls.called(told, tables, at.now.bound) - at.past.last.frame.lights.green
    return Tick(called, at.rings.demand, str(at.now.mode), at.now.bound, at.now.counter, tables,
                at.past.last.colour_began)  # fmt: skip


def stories(text, number, asked):
    """Returns what is said of some ticks, all in one run of the model, and what the model had at each tick."""
    watches = [Watch(text, replay.Shown(text, number, phase), phase, tick, AHEAD) for phase, tick in asked]
    had = {}

    def watch(at):
        had[at.now.number] = seen_by_model(at)
        for it in watches:
            it(at)

    for _ in replay.Replay(text, number, watch).rounds(max(it.last for it in watches)):
        pass
    return [it.story(number) for it in watches], had


def compare_with_lines(it, letters):
    """Compares what is shown, when it began, and when the green comes or goes, with the trace's lines."""
    assert it.shows.value == letters.at(it.tick, it.phase) and it.since == letters.run(it.tick, it.phase)
    change = letters.next(it.tick, it.phase, not it.is_green)
    if change is not None and change - it.tick > AHEAD:
        change = None
    if it.is_green:
        assert (it.came, it.gone) == (letters.run(it.tick, it.phase), change)
    else:
        assert it.came == change
    firsts, untils = [spell.first for spell in it.spells], [spell.until for spell in it.spells]
    assert firsts[1:] == untils[:-1] and untils[-1] == it.last + 1 and it.spell.first <= it.tick


def compare_call(it, had):
    """Compares the call with the first of the ticks in a row at which the model has the phase called, not green."""
    aim = it.came if it.is_green or it.phase not in had[it.tick].called else it.tick
    if aim is None or it.phase not in had[aim].called:
        assert it.call is None
        return
    since = aim
    while since - 1 in had and it.phase in had[since - 1].called:
        since -= 1
    assert it.call is not None and it.call.since == since and it.call.by


def shows_all(letters, spell, tick, found, word=3):
    """Tells whether the phases of a reason show one of some letters at the reason's tick and until its end."""
    return all(letters.at(n, p, word) in found for p in spell.reason.phases for n in {tick, spell.until - 1})


LETTERS = {
    Kind.MINIMUM: ("G", 3), Kind.EXTENDED: ("G", 3), Kind.HELD: ("G", 3), Kind.REQUEST: ("G", 3),
    Kind.CLEARANCE: ("YC", 3),
    Kind.WALK: ("W", 4), Kind.FLASHING: ("F", 4),
}  # fmt: skip
"""What a phase shows for which another waits, by the reason."""


def compare_others(it, letters, had):
    """Compares a reason that is about another phase with what that phase shows until the reason's end."""
    spell, now = it.spell, had[it.tick]
    if spell.reason.kind in LETTERS:
        found, word = LETTERS[spell.reason.kind]
        assert spell.reason.phases and shows_all(letters, spell, it.tick, found, word)
    for p in spell.reason.phases:
        if spell.reason.kind is Kind.MINIMUM and not now.mode.startswith("P"):
            began = letters.run(it.tick, p)
            assert spell.until - began <= rows(had[began].tables)[p].least_green
        if spell.reason.kind is Kind.HELD:
            laid = plan(now.tables, now.bound)
            assert p in laid.coordinated and had[spell.until - 1].counter < laid.force[p]
        if spell.reason.kind is Kind.REQUEST:
            laid = plan(now.tables, now.bound)
            counters = [had[n].counter for n in range(it.tick, spell.until)]
            assert p in laid.coordinated and spell.reason.ticks == now.tables.unit(6) and spell.reason.number > 0
            assert all(laid.force[p] <= counter < laid.force[p] + now.tables.unit(6) for counter in counters)
        if spell.reason.kind is Kind.TURN:
            assert letters.at(it.tick, p) == "G" or p in now.demand
    if spell.reason.across and spell.reason.kind is not Kind.REQUEST:
        own = rows(now.tables)[it.phase].ring
        assert all(rows(now.tables)[p].ring != own for p in spell.reason.phases)


def compare_cycle(it, had):
    """Compares a reason of the cycle, and how many ticks are missing, with the plan and the counters of the model."""
    now, reason = had[it.tick], it.seen.reasons[0]
    if reason.kind not in (Kind.REST, Kind.ROOM):
        return
    laid, least = plan(now.tables, now.bound), rows(now.tables)[it.phase].least_service
    assert it.phase not in laid.coordinated and it.phase in now.demand and reason.ticks > 0
    if reason.kind is Kind.REST:
        assert now.counter + reason.ticks == laid.window
        assert all(had[n].counter < laid.window for n in (it.tick, it.spell.until - 1))
    else:
        assert now.counter >= laid.window
        clearances = {0, *(rows(now.tables)[p].clearance for p in enabled(now.tables))}
        assert reason.ticks + laid.force[it.phase] - now.counter - least in clearances


def compare_itself(it, letters, had):
    """Compares a reason that is about the phase itself with the model's tables, calls and modes."""
    kind, now, spell = it.seen.reasons[0].kind, had[it.tick], it.spell
    span = [had[n] for n in range(it.tick, spell.until)]
    assert kind is not Kind.UNKNOWN and kind is spell.reason.kind
    if kind is Kind.UNCALLED:
        assert all(it.phase not in at.demand for at in span)
    if kind is Kind.DISABLED:
        assert it.phase not in enabled(now.tables)
    if kind is Kind.OMITTED:
        assert split_mode(now.tables, now.bound, it.phase) == 7
    if kind is Kind.REVERT:
        assert it.tick - letters.run(it.tick - 1, it.phase) < max(1, rows(now.tables)[it.phase].red_revert) or (
            letters.at(it.tick - 1, it.phase) != "R")
    modes = {Kind.START_UP: "SFCKP", Kind.FLASH: "X", Kind.SEEK: "K", Kind.ENDING: "E", Kind.PREEMPT: "P"}
    assert all(at.mode[0] in modes.get(kind, at.mode[0]) for at in span)
    if kind in (Kind.BEGINS, Kind.ENDS):
        assert (it.shows.value, it.since) == ("G" if kind is Kind.BEGINS else "Y", it.tick)
    if kind is Kind.NOTHING_NEXT:
        assert {letters.at(n, it.phase) for n in range(it.tick, spell.until)} == {"G"}


def compare(it, letters, had):
    """Compares all that is said of a phase at a tick with the trace and the model."""
    compare_with_lines(it, letters)
    compare_call(it, had)
    compare_others(it, letters, had)
    compare_cycle(it, had)
    compare_itself(it, letters, had)


def test_what_is_said_of_generated_ticks_agrees_with_the_trace_and_the_model():
    kinds, compared = set(), 0
    for path, text, number, asked in drawn():
        letters = Letters(path, number)
        found, had = stories(text, number, asked)
        for it in found:
            try:
                compare(it, letters, had)
            except AssertionError as fault:
                pytest.fail(f"{path.name} cabinet {number} phase {it.phase} tick {it.tick}: {it}\n{fault}")
            kinds |= {spell.reason.kind for spell in it.spells}
            compared += 1
    assert compared == COUNT and len(kinds) > 15 and Kind.UNKNOWN not in kinds
