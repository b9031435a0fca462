"""One test of a device, from its preparation to its result."""

import contextlib
import time
from collections.abc import Sequence
from dataclasses import dataclass, field

from ..shared.fault import Fault
from ..shared.given import Wrong
from ..shared.tables import Tables
from . import needs, safety, sentences, steps
from .comparing import Compared, asked_ticks, compared
from .driving import Bench, CantTell, Drive, Driven
from .expected import Expected, expected
from .preparing import leave_transaction, prepare
from .scripts import Script, tables_before
from .watching import Restarted

PASS, DIFFER, UNKNOWN = "pass", "differ", "can't tell"
MOST_LOST = 0.1
"""The part of the polls that may be without an answer."""


@dataclass
class Result:
    """The result of a test: the outcome, why in words, the breaches of safety, and what both sides did."""

    script: Script
    outcome: str
    words: list[str] = field(default_factory=list)
    breaches: list[str] = field(default_factory=list)
    driven: Driven | None = None
    compared: Compared | None = None
    seconds: float = 0.0


def tested(bench: Bench, script: Script, program: str) -> Result:
    """Does a test, and returns its result; whatever the device does, there is one."""
    began, bench.has_begun = time.monotonic(), False
    try:
        result = judged(bench, script, program)
    except (CantTell, Restarted, Fault, Wrong) as why:
        result = Result(script, UNKNOWN, str(why).splitlines())
        if bench.has_begun:
            reread(bench)
    result.seconds = time.monotonic() - began
    return result


def reread(bench: Bench) -> None:
    """Reads the tables of a device again after a test that didn't end: it may have restarted, or a load may be in
    force. If it doesn't answer, its tables are taken as before."""
    with contextlib.suppress(Fault):
        bench.in_force = bench.read()


def judged(bench: Bench, script: Script, program: str) -> Result:
    """Does a test and compares it."""
    tables = tables_before(script, bench.original)
    if lacking := list(dict.fromkeys(needs.lacking(script, tables, bench.watch.phases()))):
        return Result(script, UNKNOWN, [f"the device can't do this test: {it}" for it in lacking])
    if not bench.was_used:
        leave_transaction(bench)
    bench.has_begun = bench.was_used = True
    prepare(bench, tables)
    bench.watch.use({it.number for it in script.acts if it.kind == steps.PREEMPT}, set(tables.enabled()))
    driven = Drive(bench, script).run()
    bench.in_force = after(driven, script, tables)
    if driven.lost > MOST_LOST * (driven.lost + len(driven.samples)):
        raise CantTell(f"{driven.lost} of {driven.lost + len(driven.samples)} polls have no answer")

    def run(ticks: Sequence[int]) -> Expected:
        return expected(program, script, tables, driven, ticks, asked_ticks(driven))

    found = compared(driven, run, bench.watch.has_clearance)
    words = sentences.sentences(driven, found) + loads_differ(driven, found.expected) + refusals(driven)
    scenario, lines = safety.lines_of(driven, script, tables, found.expected, bench.watch.has_clearance)
    width = 0 if driven.exact else max((it.span.last - it.span.first for it in driven.samples), default=0)
    breaches = safety.breaches_of(str(program), scenario, lines, width + safety.TOLERANCE if width else 0)
    outcome = DIFFER if words or breaches else PASS
    return Result(script, outcome, words, breaches, driven, found)


def after(driven: Driven, script: Script, tables: Tables) -> Tables:
    """Returns the tables in force after a test: its loads that came into force."""
    in_force, staged = tables.copy(), None
    for done in driven.acts:
        if done.act.kind == steps.STAGE:
            staged = script.load(done.act.name, in_force)
        elif done.act.kind == steps.VERIFY and done.is_valid is False or done.act.kind == steps.DISCARD:
            staged = None
        elif done.act.kind == steps.FORCE and staged and not done.why:
            in_force.put(staged)
            staged = None
    return in_force


def loads_differ(driven: Driven, due: Expected) -> list[str]:
    """Returns the loads that only one of both accepts."""
    found, place = [], 0
    is_valid: bool | None = None
    for done in driven.acts:
        if done.act.kind == steps.VERIFY:
            is_valid = done.is_valid
        elif done.act.kind == steps.FORCE and place < len(due.loads):
            refused, place = due.loads[place], place + 1
            if is_valid and refused:
                found.append(f"the device accepts {done.act.words!r}; the proved cabinet refuses it by {refused}")
            elif is_valid is False and not refused:
                words = f"the device finds the tables of {done.act.words!r} invalid"
                found.append(f"{words}; the proved cabinet accepts them")
    return found


def refusals(driven: Driven) -> list[str]:
    """Returns the acts that the device refuses although its tables allow them."""
    return [f"the device refuses {it.act.words!r} ({it.why})" for it in driven.acts if it.why]
