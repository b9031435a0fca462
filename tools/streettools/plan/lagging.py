"""Plans in which a lagging phase that is forced off keeps phases of the next barrier group from their turn.

The lagging phase and the coordinated phase beside it have one force point, and docs/TICK.md doesn't count a force-off
at the same tick as a reason to leave the group: the coordinated phase turns yellow only after the clearance of the
lagging one. Until its own clearance is over, the ring that waits may go back to an earlier phase as soon as no phase of
the next group that is called has room. So each phase of the group must have the room by itself."""

from collections.abc import Iterator

from ..shared.tables import Tables
from .findings import Finding, warn
from .layout import Layout, least_service
from .names import Names
from .pattern_rules import has_pair
from .sentences import many, seconds


def late(laid: Layout, lagging: int, coordinated: int) -> int:
    """Returns how late, after the end of their group, a phase of the next group is still asked for its room, where the
    lagging phase is forced off: to the last tick of the coordinated phase's clearance, and by that clearance again."""
    clearances = laid.tables.clearance(lagging) + 2 * laid.tables.clearance(coordinated) - 1
    return clearances - laid.side_clearance(coordinated)


def lagging_pairs(laid: Layout) -> Iterator[tuple[int, int]]:
    """Yields each phase that is last in its group while the last of the other ring is coordinated, and that phase."""
    served = laid.waited()
    for side in laid.sides:
        last = [laid.of_side(side, ring)[-1] for ring in (1, 2)]
        for one, other in (last, last[::-1]):
            if one in served and other in laid.coordinated:
                yield one, other


def rooms_after(laid: Layout, phase: int, partners: list[int]) -> dict[int, int]:
    """Returns the ticks that each phase to be served in the group after a phase's has beyond its minimum service, if it
    is the first of its group that is called."""
    after = laid.sides[(laid.sides.index(laid.side(phase)) + 1) % len(laid.sides)]
    begins = min(laid.slots[it][0] for it in after)
    served = [it for it in laid.waited() if it in after and it not in partners]
    return {it: laid.last_end(it) - begins - least_service(laid.tables, it) for it in served}


def shortages(laid: Layout, partners: list[int]) -> Iterator[tuple[int, int, dict[int, int]]]:
    """Yields each lagging phase, the coordinated phase beside it, and the ticks that phases of the next group lack to
    be served, even if only they are called, in a cycle in which the lagging phase is forced off."""
    for lagging, coordinated in lagging_pairs(laid):
        if lagging not in partners:
            asked = late(laid, lagging, coordinated)
            rooms = rooms_after(laid, lagging, partners)
            yield lagging, coordinated, {it: asked - room for it, room in rooms.items() if 0 <= room < asked}


def first_needs(laid: Layout, partners: list[int]) -> dict[int, int]:
    """Returns the ticks that the first phase of each ring in the group after a lagging phase needs beyond its minimum
    service, so that no phase of the group is skipped. Those that follow it in its ring then have enough."""
    needs: dict[int, int] = {}
    for lagging, coordinated in lagging_pairs(laid):
        if lagging not in partners:
            rooms = rooms_after(laid, lagging, partners)
            for order in laid.orders:
                first = next((it for it in order if it in rooms), None)
                if first is not None:
                    needs[first] = late(laid, lagging, coordinated)
    return needs


def is_short(laid: Layout, partners: list[int]) -> bool:
    """Tells whether a phase of a pattern may be skipped after a lagging phase."""
    return any(lacks for _, _, lacks in shortages(laid, partners))


def sentence(laid: Layout, phases: list[int], lack: int) -> str:
    """Returns what phases with equal splits lack after a lagging phase, and how much more each needs."""
    split = laid.time(phases[0]) // 10
    if len(phases) == 1:
        return f"its split of {split} s is too short by {seconds(lack)}; give it {-(-lack // 10)} s more"
    return f"their splits of {split} s are too short by {seconds(lack)}; give each {-(-lack // 10)} s more"


def of_pattern(tables: Tables, pattern: int, number: int, names: Names) -> Iterator[Finding]:
    """Yields the phases of a pattern that may be skipped after a lagging phase."""
    laid, known = Layout(tables, pattern), names.intersection(number)
    for lagging, coordinated, lacks in shortages(laid, known.partners):
        is_whole = len(lacks) == len(rooms_after(laid, lagging, known.partners))
        for equal in dict.fromkeys((laid.time(it), lack) for it, lack in lacks.items()):
            phases = [it for it, lack in lacks.items() if (laid.time(it), lack) == equal]
            verb = ("are" if len(phases) > 1 else "is") if is_whole else "may be"
            yield warn(names.called(number), (
                f"pattern {pattern}: {many(map(known.phase_name, phases))} {verb} skipped when the lagging phase "
                f"{lagging} is forced off, since phase {coordinated} stays green until {lagging} has cleared: "
                f"{sentence(laid, phases, equal[1])}, or let {lagging} lead"
            ))  # fmt: skip


def all_of(tables: list[Tables], sound: list[bool], names: Names) -> Iterator[Finding]:
    """Yields the warnings of all cabinets whose tables keep the rules."""
    for number, it in enumerate(tables, 1):
        for pattern in it.patterns() if sound[number - 1] else ():
            if has_pair(it, pattern):
                yield from of_pattern(it, pattern, number, names)
