"""What moments keep of runs is what walking back over all of them counts."""

import random

import pytest

from model import tick
from model.calls import active
from model.drawn.cabinets import cabinet
from model.orders import Drift
from model.controller import Controller
from model.past import Past, stage_of
from model.scenario_read import cabinet_shape
from model.sides import incompatible
from model.tables import rows
from model.words import Kind

TICKS = 500


def lasting(moments, holds):
    """Counts back for how many last moments in a row a test holds."""
    count = 0
    while count < len(moments) and holds(moments[-1 - count]):
        count += 1
    return count


def drawn_past(monkeypatch, seed):
    """Runs a drawn cabinet for some ticks with inputs and commands; returns its past, and what each tick saw of
    calls."""
    draw, seen_at = random.Random(seed), []
    seen = tick.rings_seen

    def watched(past: Past, now):
        rings = seen(past, now)
        is_active = active(past.told.calls, past.tables, now.bound)
        seen_at.append((past.last.frame.lights.green, is_active, rings.demand, incompatible(past.tables)))
        return rings

    monkeypatch.setattr(tick, "rings_seen", watched)
    drawn = cabinet(draw, 1)
    setup = cabinet_shape(1)(drawn.value, "cabinet")
    controller = Controller(setup.tables, setup.pattern, setup.clock, Drift())
    for _ in range(TICKS):
        if draw.random() < 0.1:
            controller.detector(draw.choice(drawn.made.phases), draw.random() < 0.6)
        if draw.random() < 0.03:
            controller.button(draw.choice(drawn.made.phases))
        if draw.random() < 0.02:
            controller.preempt(draw.choice(drawn.preempts or [1]), draw.random() < 0.5)
        if draw.random() < 0.01:
            controller.command(draw.choice([0, 255, *drawn.patterns]))
        controller.tick()
    return controller.past, seen_at


def since_start(moments):
    """Returns the last moments that are no Start."""
    count = lasting(moments, lambda it: it.frame.mode.kind is not Kind.START)
    return moments[len(moments) - count :]


def check_runs(moments, last):
    """Compares the runs of colours, signals, modes and stages with walks back."""
    for p in range(1, 17):
        colour, signal = last.frame.lights.of[p], last.frame.signals.of[p]
        assert last.number - last.colour_began[p] + 1 == lasting(moments, lambda it: it.frame.lights.of[p] is colour)
        assert last.number - last.signal_began[p] + 1 == lasting(moments, lambda it: it.frame.signals.of[p] is signal)
    assert last.mode_run == lasting(moments, lambda it: it.frame.mode == last.frame.mode)
    stage = stage_of(last.frame.mode)
    assert last.stage_run == (lasting(moments, lambda it: stage_of(it.frame.mode) == stage) if stage else 0)
    same = (
        lambda it: it.frame.mode == last.frame.mode
        and it.frame.lights.green == it.frame.lights.on == last.frame.lights.on
    )  # noqa: E731
    assert last.held_run == lasting(moments, same)


def check_rings(moments, last):
    """Compares the phases last on since Start with a walk back."""
    for ring in (1, 2):
        on = [p for it in since_start(moments) for p in it.frame.lights.on if rows(it.tables)[p].ring == ring]
        assert last.last_on.get(ring) == (on[-1] if on else None)
    shown = [min(it.frame.lights.on) for it in since_start(moments) if it.frame.lights.on]
    assert last.latest_on == (shown[-1] if shown else 0)


def check_cycle(moments, last):
    """Compares the steps of the cycle with those of the counters since the last pickup or change to 0."""
    if last.frame.mode.kind is not Kind.COORD:
        return
    in_step = lasting(moments, lambda it: it.frame.mode == last.frame.mode and it.frame.version == last.frame.version)
    counters = [it.frame.counter for it in moments[len(moments) - in_step :]]
    zeros = [at for at in range(1, len(counters)) if counters[at] == 0 and counters[at - 1] != 0]
    counters = counters[zeros[-1] if zeros else 0 :]
    steps = [two - one for one, two in zip(counters, counters[1:])]
    assert (last.cycle.stands, last.cycle.skips) == (steps.count(0), steps.count(2))
    assert last.cycle.has_moved == (not steps or steps[-1] != 0)


@pytest.mark.parametrize("seed", range(6))
def test_runs_that_moments_keep_are_those_that_a_walk_back_counts(monkeypatch, seed):
    past, seen_at = drawn_past(monkeypatch, seed)
    for number in range(1, TICKS + 1, 7):
        moments, last, saw = past.moments[: number + 1], past.moments[number], seen_at[:number]
        check_runs(moments, last)
        check_rings(moments, last)
        check_cycle(moments, last)
        for p in range(1, 17):
            assert last.quiet.get(p, 0) == lasting(saw, lambda it: p in it[0] and p not in it[1])
            assert last.opposed.get(p, 0) == lasting(saw, lambda it: p in it[0] and bool(it[3][p] & it[2]))
