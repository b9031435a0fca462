"""A coordination pattern laid over its cycle: slots, local zero and force points, in ticks from local zero.

After the FHWA Signal Timing Manual; docs/DEFINITIONS.md says it in words (`zero_point`, `force_point`, `window`).
"""

from typing import NamedTuple

from .tables import Tables


class Plan(NamedTuple):
    """Cycle and offset in ticks; the coordinated phase of each ring; the force point of each phase; `window` is the
    last moment at which both coordinated phases are still green; `shift` is added to a target if offsets refer to the
    end."""

    cycle: int
    offset: int
    coordinated: tuple[int, int]
    force: dict[int, int]
    window: int
    shift: int


class Correction(NamedTuple):
    """How offsets are corrected: the mode (2 dwell, 3 shortway, 4 add only), and by how many ticks at most a cycle
    dwells, is lengthened, and is shortened."""

    mode: int
    dwell: int
    add: int
    skip: int


def correction(tables: Tables) -> Correction:
    """Returns how tables correct offsets."""
    return Correction(*(int(tables.unit(column)) for column in (1, 2, 3, 4)))


def cycles_needed(by: Correction, cycle: int, target: int, drifts: bool) -> int:
    """Returns in how many cycles at most an undisturbed cabinet comes onto its offset from a local zero with this
    target (the promise of docs/GUARANTEES.md): as often as the limit of the correction goes into the way to the target,
    twice that with a clock that drifts."""
    ahead = (cycle - target) % cycle
    ways = {2: [(ahead, by.dwell)], 4: [(ahead, by.add)]}.get(by.mode, [(ahead, by.add), (target, by.skip)])
    return min(-(-way // limit) for way, limit in ways) * (2 if drifts else 1)


def slots(tables: Tables, pattern: int) -> dict[int, tuple[int, int]]:
    """Returns where each phase's slot starts and ends, in ticks from the start of the sequence."""
    split, sequence = tables.pattern(pattern, 4), tables.pattern(pattern, 5)
    found = {}
    for ring in (1, 2):
        at = 0
        for phase in tables.sequence(sequence, ring):
            length = 10 * tables.split(split, phase, 3)
            found[phase] = (at, at + length)
            at += length
    return found


def coordinated(tables: Tables, pattern: int) -> tuple[int, int] | None:
    """Returns the coordinated phases of rings 1 and 2, or None where there isn't one of each."""
    split = tables.pattern(pattern, 4)
    marked = [phase for phase in tables.enabled() if tables.split(split, phase, 5) == 1]
    by_ring = {tables.phase(phase, 22): phase for phase in marked}
    return (by_ring[1], by_ring[2]) if set(by_ring) == {1, 2} else None


def plan(tables: Tables, pattern: int) -> Plan | None:
    """Returns the plan of a pattern, or None where the pattern isn't defined or can't be laid out."""
    pair = coordinated(tables, pattern) if tables.pattern(pattern, 2) else None
    laid = slots(tables, pattern)
    if not pair or not set(pair) <= set(laid):
        return None
    cycle = 10 * tables.pattern(pattern, 2)
    zero = max(laid[phase][0] for phase in pair)
    force = {}
    for phase in laid:
        side = tables.side(phase) & set(laid)
        ring = tables.phase(phase, 22)
        ends = [laid[it][1] for it in side if tables.phase(it, 22) == ring]
        if not ends:
            return None
        side_end, greatest = max(ends), max(tables.clearance(it) for it in side)
        force[phase] = (min(laid[phase][1] - tables.clearance(phase), side_end - greatest) - zero) % cycle
    window = min(force[phase] for phase in pair)
    shift = window if tables.unit(8) == 2 else 0
    return Plan(cycle, 10 * tables.pattern(pattern, 3), pair, force, window, shift)
