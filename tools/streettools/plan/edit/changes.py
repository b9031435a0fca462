"""What a page may change of a plan, and the plan that results.

With `snap` a change stops where a rule would be broken, and its notes say which rule and by how much. Without it the
change is made as it is, and the check says what is wrong."""

from dataclasses import dataclass, field

from ...shared.cells import PATTERNS, SEQUENCES, RINGS, put, value
from ...shared.given import Wrong
from ...shared.tables import Tables
from .. import rules
from ..fields import PHASE_FIELDS, UNIT_FIELDS
from ..layout import Layout
from ..pattern_sentences import sentences
from ..rules import Broken
from . import cycles, edges
from .plans import Plan

TIMES = ("min_green", "max_green", "passage", "walk", "ped_clear", "yellow", "red_clear")
LIMITS = ("add_limit", "skip_limit", "dwell_limit")
KINDS = ("offset", "split", "edge", "swap", "cycle", "time", "limit", "travel")


@dataclass(frozen=True)
class Change:
    """A change: its kind, the intersection (0: all), the pattern, the phase, the name of a time or limit, the value in
    seconds (of an edge: by how many it moves), and whether it stops at the rules."""

    kind: str
    intersection: int
    pattern: int = 1
    phase: int = 0
    name: str = ""
    value: float = 0
    snap: bool = True


@dataclass
class Made:
    """A changed plan: what was changed, in words; notes, as where it stopped; the intersections that changed."""

    plan: Plan
    label: str
    notes: list[str] = field(default_factory=list)
    changed: list[int] = field(default_factory=list)


def made(plan: Plan, change: Change) -> Made:
    """Returns a changed plan; raises Wrong, with the reason, if the change can't be made."""
    if change.intersection not in plan.numbers and not (change.kind == "cycle" and change.intersection == 0):
        raise Wrong(f"there is no intersection {change.intersection}")
    if change.kind == "travel":
        return travelled(plan, change)
    if change.kind in ("time", "limit"):
        return timed(plan, change)
    if change.pattern not in PATTERNS:
        raise Wrong(f"there is no pattern {change.pattern}")
    if change.kind == "cycle":
        return of_cycle(plan, change)
    laid = laid_of(plan, change)
    if change.kind == "offset":
        return shifted(plan, change, laid)
    if change.kind == "swap":
        return swapped(plan, change, laid)
    return split(plan, change, laid)


def laid_of(plan: Plan, change: Change) -> Layout:
    """Returns the pattern of a change laid over its cycle; refuses one that can't be drawn."""
    tables = plan.of(change.intersection)
    if change.pattern not in tables.patterns():
        raise Wrong(f"{plan.names.called(change.intersection)} has no pattern {change.pattern}")
    refuse_undrawn(plan, change.intersection)
    return Layout(tables, change.pattern)


def refuse_undrawn(plan: Plan, number: int) -> None:
    """Refuses to change patterns of an intersection whose rings can't be drawn."""
    if any(it.rule < 10 or it.rule == 14 for it in rules.broken(plan.of(number))):
        raise Wrong(f"{plan.names.called(number)}: its rings and sequences break a rule: correct these in the sheet "
                    "first")  # fmt: skip


def whole(number: float, least: int, most: int, what: str) -> int:
    """Returns a whole number of seconds in a range."""
    if number != round(number):
        raise Wrong(f"{what}: {number:g} s isn't whole seconds")
    if not least <= number <= most:
        raise Wrong(f"{what}: {number:g} s is not {least} to {most}")
    return int(number)


def head(plan: Plan, change: Change) -> str:
    """Returns where a change is."""
    return f"{plan.names.called(change.intersection)}, pattern {change.pattern}"


def done(plan: Plan, change: Change, tables: Tables, words: str, notes: list[str] | None = None) -> Made:
    """Returns a plan with the tables of an intersection changed."""
    number = change.intersection
    return Made(plan.with_tables({number: tables}), f"{head(plan, change)}: {words}", notes or [], [number])


def shifted(plan: Plan, change: Change, laid: Layout) -> Made:
    """Returns the plan with another offset."""
    before, cycle = value(laid.tables, ("pattern", laid.pattern, 3)), laid.cycle // 10
    after = whole(change.value, 0, 255, "offset")
    notes = []
    if after >= cycle and change.snap:
        notes.append(f"rule 15: the offset is less than the cycle, {cycle} s: {after} s is {after % cycle} s")
        after %= cycle
    tables = laid.tables.copy()
    put(tables, ("pattern", laid.pattern, 3), after)
    return done(plan, change, tables, f"offset {before} to {after} s", notes)


def split(plan: Plan, change: Change, laid: Layout) -> Made:
    """Returns the plan with an edge between two splits moved, or with a split of another length."""
    known, phase, way = plan.names.intersection(change.intersection), change.phase, 1
    seconds = whole(change.value, -255, 255, "the way of an edge")
    if change.kind == "split":
        phase, way = edges.of_split(laid, change.phase)
        seconds = way * (whole(change.value, 0, 255, "split") - laid.time(change.phase) // 10)
    by, notes = edges.shifts(laid, phase), []
    if change.snap and seconds:
        ends = edges.limits(laid.tables, laid, by, known)
        if not ends.least <= seconds <= ends.most:
            over = seconds - ends.most if seconds > 0 else ends.least - seconds
            notes.append(f"stopped {over} s short of that: {ends.right if seconds > 0 else ends.left}")
            seconds = max(ends.least, min(ends.most, seconds))
    tables = edges.moved(laid.tables, laid, by, seconds)
    wrong = next((it for it in by if not 0 <= value(tables, ("split", laid.split, it, 3)) <= 255), None)
    if wrong is not None:
        raise Wrong(f"phase {wrong} would have a split of {value(tables, ('split', laid.split, wrong, 3))} s: it is 0 "
                    "to 255 s")  # fmt: skip
    now = Layout(tables, laid.pattern)
    words = ", ".join(f"{it} {laid.time(it) // 10} to {now.time(it) // 10} s" for it in by if it not in known.partners)
    return done(plan, change, tables, f"splits {words}", notes)


def swapped(plan: Plan, change: Change, laid: Layout) -> Made:
    """Returns the plan with a phase and the next one of its ring in the other order: one leads then that lagged."""
    order = list(edges.ring_of(laid, change.phase))
    at = order.index(change.phase)
    if at + 1 == len(order) or laid.side(order[at]) != laid.side(order[at + 1]):
        raise Wrong(f"phase {change.phase} is the last of its ring in its barrier group")
    order[at], order[at + 1] = order[at + 1], order[at]
    orders = [tuple(order) if change.phase in it else tuple(it) for it in laid.orders]
    tables = laid.tables.copy()
    number = sequence_for(tables, laid.pattern, orders)
    for ring in RINGS:
        put(tables, ("sequence", number, ring), orders[ring - 1])
    put(tables, ("pattern", laid.pattern, 5), number)
    refuse_new(plan, change, tables)
    return done(plan, change, tables, f"phase {order[at]} before phase {order[at + 1]} (sequence {number})")


def sequence_for(tables: Tables, pattern: int, orders: list[tuple[int, ...]]) -> int:
    """Returns the number of a sequence for some orders: one that has them, the pattern's own if no other pattern uses
    it, or a free one."""
    sequences = {it: [tuple(value(tables, ("sequence", it, ring))) for ring in RINGS] for it in SEQUENCES}
    same = next((it for it in SEQUENCES if sequences[it] == orders), None)
    if same is not None:
        return same
    own = value(tables, ("pattern", pattern, 5))
    used = [value(tables, ("pattern", it, 5)) for it in tables.patterns()]
    if own != 1 and used.count(own) == 1:
        return int(own)
    free = next((it for it in SEQUENCES if it != 1 and it not in used and not any(sequences[it])), None)
    if free is None:
        raise Wrong("all 16 sequences are used")
    return free


def refuse_new(plan: Plan, change: Change, tables: Tables) -> None:
    """Refuses tables that break a rule which isn't broken yet, if a change stops at the rules."""
    number = change.intersection
    new = sorted(set(rules.broken(tables)) - set(rules.broken(plan.of(number))))
    if change.snap and new:
        raise Wrong(in_words(plan, number, tables, new[0]))


def in_words(plan: Plan, number: int, tables: Tables, broken: Broken) -> str:
    """Returns a broken rule in words."""
    return f"rule {broken.rule}: {'; '.join(sentences(tables, plan.names.intersection(number), broken))}"


def of_cycle(plan: Plan, change: Change) -> Made:
    """Returns the plan with another cycle of a pattern, at one intersection or at all that have the pattern."""
    after = whole(change.value, 1, 255, "cycle")
    numbers = [change.intersection] if change.intersection else list(plan.numbers)
    numbers = [it for it in numbers if change.pattern in plan.of(it).patterns()]
    if not numbers:
        raise Wrong(f"no intersection has pattern {change.pattern}")
    for it in numbers:
        refuse_undrawn(plan, it)
    notes: list[str] = []
    try:
        changed = cycled(plan, change.pattern, numbers, after)
    except cycles.TooShort:
        wished, after = after, shortest(plan, change.pattern, numbers, after, notes)
        if not change.snap or after == wished:
            raise Wrong("; ".join(notes)) from None
        changed = cycled(plan, change.pattern, numbers, after)
    before = sorted({value(plan.of(it), ("pattern", change.pattern, 2)) for it in numbers})
    where = head(plan, change) if change.intersection else f"pattern {change.pattern}"
    words = f"{where}: cycle {' and '.join(map(str, before))} to {after} s"
    return Made(plan.with_tables(changed), words, notes, numbers)


def cycled(plan: Plan, pattern: int, numbers: list[int], cycle: int) -> dict[int, Tables]:
    """Returns the tables of some intersections with another cycle of a pattern."""
    return {it: cycles.scaled(plan.of(it), pattern, cycle, plan.names.intersection(it)) for it in numbers}


def shortest(plan: Plan, pattern: int, numbers: list[int], wished: int, notes: list[str]) -> int:
    """Returns the shortest cycle of a pattern in which all of some intersections keep the rules; notes say which of
    them needs it, and by how much a wished one is too short."""
    needs = {it: cycles.least(plan.of(it), pattern, plan.names.intersection(it)) for it in numbers}
    longest = max(needs, key=lambda it: needs[it])
    notes.append(f"rules 17 to 19: {plan.names.called(longest)} needs a cycle of {needs[longest]} s, "
                 f"{needs[longest] - wished} s more than that")  # fmt: skip
    return needs[longest]


def timed(plan: Plan, change: Change) -> Made:
    """Returns the plan with another time of a phase, or another limit of correction."""
    number, tables = change.intersection, plan.of(change.intersection).copy()
    is_phase = change.kind == "time"
    if change.name not in (TIMES if is_phase else LIMITS):
        raise Wrong(f"{change.name!r} isn't a time that is edited here")
    if is_phase and change.phase not in tables.enabled():
        raise Wrong(f"{plan.names.called(number)} has no phase {change.phase}")
    if is_phase and change.phase in plan.names.intersection(number).partners:
        raise Wrong(f"phase {change.phase} is a placeholder phase: it has the times of the phase that it faces")
    each = (PHASE_FIELDS if is_phase else UNIT_FIELDS)[change.name]
    said = int(change.value) if change.value == round(change.value) else change.value
    cell = ("phase", change.phase, each.column) if is_phase else ("unit", each.column)
    before = each.show(value(tables, cell))
    put(tables, cell, each.read(said))
    refuse_new(plan, change, tables)
    what = f"phase {change.phase}, {change.name}" if is_phase else change.name
    label = f"{plan.names.called(number)}, {what}: {before} to {said:g} s"
    return Made(plan.with_tables({number: tables}), label, [], [number])


def travelled(plan: Plan, change: Change) -> Made:
    """Returns the plan with another time of travel to the next intersection."""
    if not 0 <= change.value <= 3600:
        raise Wrong(f"{change.value:g} s of travel is not 0 to 3600")
    if change.intersection == len(plan.tables):
        raise Wrong("the last intersection has no next one")
    before = plan.names.intersection(change.intersection).travel
    old = "unknown" if before is None else f"{before:g}"
    label = f"{plan.names.called(change.intersection)}: travel to the next {old} to {change.value:g} s"
    return Made(plan.with_travel(change.intersection, change.value), label)
