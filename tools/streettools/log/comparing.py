"""A log and a trace of the bench: where they part, and by how much the greens of each phase and each cycle differ."""

from dataclasses import asdict, dataclass, field
from statistics import fmean
from typing import Any

from ..shared.plans import coordinated
from ..shared.tables import Tables
from . import times
from .greens import Green, Lights, together
from .spans import Span

COLOURS = {"G": "green", "Y": "yellow", "C": "red clearance", "R": "red"}


@dataclass
class Parting:
    """Where a log and the bench part: the tick from which they show the same, None if they never do; and the first
    tick after that at which they differ, None if they don't, with the phases that differ (phase, log, bench); and the
    share of the time in which all colours are the same."""

    agree: int | None = None
    part: int | None = None
    differ: list[tuple[int, str, str]] = field(default_factory=list)
    share: float = 0.0


@dataclass
class OfPhase:
    """The greens of a phase: how many, their mean lengths and those of whole splits (green, yellow change, red
    clearance), and the difference of the bench's greens in each pair of cycles, in ticks: mean, mean without sign, and
    the greatest, with the tick of its cycle."""

    phase: int
    log_count: int
    bench_count: int
    log_mean: float | None
    bench_mean: float | None
    log_split: float | None
    bench_split: float | None
    difference: float | None
    distance: float | None
    greatest: int | None
    greatest_at: int | None


@dataclass
class Compared:
    """What is compared of a cabinet. `reference` is the phase whose greens begin the cycles; `offset` and
    `offset_distance` are the mean of how much later the bench begins a cycle, with and without sign, in ticks."""

    cabinet: int
    parting: Parting
    reference: int
    log_cycles: int
    bench_cycles: int
    pairs: int
    log_cycle: float | None
    bench_cycle: float | None
    offset: float | None
    offset_distance: float | None
    phases: list[OfPhase]


def mean(values: list[int]) -> float | None:
    """Returns the mean of some numbers, None if there are none."""
    return fmean(values) if values else None


def parting(log: Lights, bench: Lights, span: Span) -> Parting:
    """Returns where a log and the bench part."""
    found = Parting()
    changes = [it for it in together(log.shows, bench.shows) if it[0] < span.end]
    same = 0
    for place, (tick, one, other) in enumerate(changes):
        until = changes[place + 1][0] if place + 1 < len(changes) else span.end
        begin = max(tick, span.begin)
        if until <= begin:
            continue
        if one.colours == other.colours:
            same += until - begin
            found.agree = begin if found.agree is None else found.agree
        elif found.agree is not None and found.part is None:
            found.part = begin
            pairs = enumerate(zip(one.colours, other.colours), 1)
            found.differ = [(phase, was, now) for phase, (was, now) in pairs if was != now]
    found.share = same / max(1, span.end - span.begin)
    return found


def reference_of(tables: Tables, log: Lights, span: Span) -> int:
    """Returns the phase whose greens begin the cycles: the coordinated phase of ring 1 of the pattern that runs the
    longest, else the phase with the most greens."""
    lasted: dict[int, int] = {}
    for it, later in zip(log.shows, [*log.shows[1:], None]):
        if it.mode.startswith("C"):
            end = later.tick if later else span.end
            pattern = int(it.mode[1:])
            lasted[pattern] = lasted.get(pattern, 0) + end - it.tick
    for pattern in sorted(lasted, key=lambda number: -lasted[number]):
        pair = coordinated(tables, pattern)
        if pair and log.greens(pair[0], span.begin, span.end):
            return pair[0]
    return max(range(1, 17), key=lambda phase: (len(log.greens(phase, span.begin, span.end)), -phase))


def pairs_of(ones: list[Green], others: list[Green]) -> list[tuple[int, int]]:
    """Returns the places of cycles that belong together: each cycle of the log with the cycle of the bench that begins
    nearest, if this is nearer than half a cycle, and no other cycle of the log is nearer to it."""
    nearest: dict[int, tuple[int, int]] = {}
    place = 0
    for at in range(len(ones) - 1):
        start, length = ones[at].start, ones[at + 1].start - ones[at].start
        while place + 1 < len(others) - 1 and abs(others[place + 1].start - start) <= abs(others[place].start - start):
            place += 1
        if place < len(others) - 1:
            far = abs(others[place].start - start)
            if 2 * far < length and (place not in nearest or far < nearest[place][0]):
                nearest[place] = (far, at)
    return sorted((at, other) for other, (_, at) in nearest.items())


def in_cycle(greens: list[Green], begin: int, end: int) -> int:
    """Returns how long a phase is green in a cycle: of the greens that begin in it."""
    return sum(it.length for it in greens if begin <= it.start < end)


def of_phase(phase: int, log: Lights, bench: Lights, span: Span, cycles: list[tuple[Span, Span]]) -> OfPhase:
    """Returns what is compared of a phase; `cycles` are the pairs of cycles."""
    ones, others = log.greens(phase, *span), bench.greens(phase, *span)
    log_split, bench_split = (mean([it.length for it in side.splits(phase, *span)]) for side in (log, bench))
    apart = [in_cycle(others, *other) - in_cycle(ones, *one) for one, other in cycles]
    most = max(range(len(apart)), key=lambda place: abs(apart[place]), default=None)
    return OfPhase(
        phase, len(ones), len(others), mean([it.length for it in ones]), mean([it.length for it in others]),
        log_split, bench_split, mean(apart), mean([abs(it) for it in apart]), None if most is None else apart[most],
        None if most is None else cycles[most][0].begin,
    )  # fmt: skip


def lengths(greens: list[Green]) -> list[int]:
    """Returns the lengths of cycles, from green to green."""
    return [later.start - it.start for it, later in zip(greens, greens[1:])]


def compare(cabinet: int, tables: Tables, log: Lights, bench: Lights, span: Span) -> Compared:
    """Returns what is compared of a cabinet."""
    reference = reference_of(tables, log, span)
    ones, others = log.greens(reference, *span), bench.greens(reference, *span)
    pairs = pairs_of(ones, others)
    cycles = [
        (Span(ones[one].start, ones[one + 1].start), Span(others[other].start, others[other + 1].start))
        for one, other in pairs
    ]
    late = [other.begin - one.begin for one, other in cycles]
    phases = [of_phase(phase, log, bench, span, cycles) for phase in range(1, 17)]
    phases = [it for it in phases if it.log_count or it.bench_count]
    return Compared(
        cabinet, parting(log, bench, span), reference, max(0, len(ones) - 1), max(0, len(others) - 1), len(pairs),
        mean(lengths(ones)), mean(lengths(others)), mean(late), mean([abs(it) for it in late]), phases,
    )  # fmt: skip


def seconds(ticks: float | None, signed: bool = False) -> str:
    """Returns ticks as seconds for a table."""
    if ticks is None:
        return "-"
    value = round(ticks / 10, 1) + 0.0  # no -0.0
    return f"{value:+.1f}" if signed else f"{value:.1f}"


def parting_words(it: Parting) -> str:
    """Returns where a log and the bench part, in words."""
    same = f"the same colours in {100 * it.share:.1f} % of the time"
    if it.agree is None:
        return f"log and bench never show the same colours; {same}"
    begin = f"log and bench agree from {times.time_text(it.agree)} on"
    if it.part is None:
        return f"{begin}, to the end; {same}"
    differ = ", ".join(f"phase {phase} {COLOURS[one]} in the log, {COLOURS[two]} here" for phase, one, two in it.differ)
    return f"{begin}, and part at {times.time_text(it.part)}: {differ}; {same}"


def text(found: list[Compared], places: dict[int, str], span: Span) -> str:
    """Returns the comparison as text. Times are in seconds; a difference above 0 is later, or longer, at the bench."""
    lines = [f"{times.time_text(span.begin)} to {times.time_text(span.end)}"]
    for it in found:
        lines += ["", places[it.cabinet], f"  {parting_words(it.parting)}"]
        lines.append(
            f"  cycles by the green of phase {it.reference}: {it.log_cycles} in the log (mean "
            f"{seconds(it.log_cycle)} s), {it.bench_cycles} at the bench (mean {seconds(it.bench_cycle)} s), "
            f"{it.pairs} compared"
        )
        lines.append(
            f"  the bench begins a cycle {seconds(it.offset, True)} s later on average, {seconds(it.offset_distance)} s"
            " without sign"
        )
        lines.append(
            "  phase   greens: log  bench   mean: log  bench   split: log  bench   difference  without sign  greatest"
        )
        for row in it.phases:
            at = "" if not row.greatest or row.greatest_at is None else f" at {times.time_text(row.greatest_at)}"
            lines.append(
                f"  {row.phase:5}   {row.log_count:11}  {row.bench_count:5}   {seconds(row.log_mean):>9}  "
                f"{seconds(row.bench_mean):>5}   {seconds(row.log_split):>10}  {seconds(row.bench_split):>5}   "
                f"{seconds(row.difference, True):>10}  {seconds(row.distance):>12}  "
                f"{seconds(row.greatest, True):>8}{at}"
            )
    return "".join(f"{line}\n" for line in lines)


def as_json(found: list[Compared], places: dict[int, str], span: Span) -> dict[str, Any]:
    """Returns the comparison as JSON; times are ticks since midnight of the log's first day."""
    return {
        "begin": span.begin, "end": span.end,
        "cabinets": [asdict(it) | {"name": places[it.cabinet]} for it in found],
    }  # fmt: skip
