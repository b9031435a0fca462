"""The checks of a map before anything runs: by the network, by the tables of the cabinets."""

import itertools
from collections.abc import Callable, Iterator
from typing import Any, NamedTuple

from ..shared.fault import Fault
from ..shared.tables import Tables
from .mapping import Map, MappedMovement, MappedSignal
from .network import Link, Network


def tables_of(scenario: dict[str, Any]) -> list[Tables]:
    """Returns the tables with which the cabinets of a scenario open."""
    return [Tables(it.get("base", "std8"), it.get("cells", ())) for it in scenario["cabinets"]]


def check(street: Map, network: Network, scenario: dict[str, Any]) -> None:
    """Refuses a map that doesn't fit the network or the cabinets. The scenario has been taken by the program."""
    tables = tables_of(scenario)
    check_signals(street, network, len(tables))
    for signal in street.signals:
        check_links(street, signal, network)
        check_overlaps(street, signal, tables[signal.cabinet - 1])
        check_conflicts(street, signal, network, tables[signal.cabinet - 1])
    for cabinet, known in enumerate(tables, 1):
        check_phases(street, cabinet, known)
    for item in street.preempts:
        if item.cabinet > len(tables):
            raise refused(street, f"preempt {item.number}", f"the scenario has no cabinet {item.cabinet}")
        if missing := next((it for it in item.edges if it not in network.edges), None):
            raise refused(street, f"preempt {item.number}", f"the network has no edge {missing}")
        enabled = tables[item.cabinet - 1].enabled()
        if strange := next((it for it in item.phases if it not in enabled), None):
            words = f"phase {strange} is not enabled in cabinet {item.cabinet}"
            raise refused(street, f"preempt {item.number}", words)


def refused(street: Map, place: str, words: str) -> Fault:
    """Returns a refusal of something in a map."""
    return Fault(f"{street.path}: {place}: {words}")


def check_signals(street: Map, network: Network, cabinets: int) -> None:
    """Each signal of the network is in the map once, each cabinet has a signal."""
    named = [it.id for it in street.signals] + list(street.own)
    if twice := next((it for it in named if named.count(it) > 1), None):
        raise refused(street, f"signal {twice}", "is in the map twice")
    for name in named:
        if name not in network.links:
            words = f"{network.path.name} has none of this name: a map of another network?"
            raise refused(street, f"signal {name}", words)
    for name in network.links:
        if name not in named:
            raise refused(street, f"signal {name}", "has no cabinet (own = [..] names signals that SUMO switches)")
    for signal in street.signals:
        if signal.cabinet > cabinets:
            raise refused(street, f"signal {signal.id}", f"the scenario has no cabinet {signal.cabinet}")
    for cabinet in range(1, cabinets + 1):
        if cabinet not in [it.cabinet for it in street.signals]:
            raise Fault(f"{street.path}: cabinet {cabinet} of the scenario has no signal")


def check_links(street: Map, signal: MappedSignal, network: Network) -> None:
    """Each link of the signal has one movement, and each link of the map is one of the network."""
    known = {link.name: link for link in network.links[signal.id]}
    served: dict[str, str] = {}
    for movement in signal.movements:
        for name in movement.links:
            if name not in known:
                raise refused(
                    street,
                    f"signal {signal.id}: movement {movement.name}",
                    f"{network.path.name} has no link {name} there: a map of another network?",
                )
            if name in served:
                words = f"link {name} has movements {served[name]} and {movement.name}"
                raise refused(street, f"signal {signal.id}", words)
            served[name] = movement.name
    for name, link in known.items():
        if name not in served:
            raise refused(street, f"signal {signal.id}", f"link {link.index} ({name}) has no phase")
    for lane in itertools.chain.from_iterable(it.lanes for it in signal.detectors):
        if lane not in network.lanes:
            words = f"a detector is on lane {lane}, which {network.path.name} hasn't"
            raise refused(street, f"signal {signal.id}", words)


def check_phases(street: Map, cabinet: int, tables: Tables) -> None:
    """Each enabled phase of a cabinet has a link or is named as idle, and each phase of the map is enabled."""
    signals = [it for it in street.signals if it.cabinet == cabinet]
    enabled = tables.enabled()
    place = f"signal {signals[0].id}"
    served = {phase for it in signals for movement in it.movements for phase in movement.phases()}
    idle = {phase for it in signals for phase in it.idle}
    called = {it.phase for signal in signals for it in signal.detectors}
    if strange := sorted((served | called) - set(enabled)):
        raise refused(street, place, f"phase {strange[0]} is not enabled in cabinet {cabinet}")
    if bare := sorted(set(enabled) - served - idle):
        words = f"phase {bare[0]} of cabinet {cabinet} has no link (idle = [..] names phases without traffic)"
        raise refused(street, place, words)
    if both := sorted(served & idle):
        raise refused(street, place, f"phase {both[0]} is idle, and has a link")


def check_overlaps(street: Map, signal: MappedSignal, tables: Tables) -> None:
    """The overlaps keep the rules of `arterial overlaps` by the tables with which the cabinet opens."""
    for movement in signal.movements:
        overlap, place = movement.overlap, f"signal {signal.id}: movement {movement.name}"
        if overlap is None:
            continue
        if overlap.yellow < 30:
            raise refused(street, place, "the yellow change of an overlap must be at least 3.0 s (30 ticks)")
        for phase in overlap.parents:
            if phase not in tables.enabled() or overlap.parents.count(phase) > 1:
                raise refused(street, place, f"parent {phase} is not enabled, or is a duplicate")
            if overlap.trail + overlap.yellow + overlap.red > tables.clearance(phase):
                raise refused(street, place, f"trail, yellow and red take longer than phase {phase} clears in")


def may_be_on(one: int, other: int, tables: Tables) -> bool:
    """Tells whether two phases may be on at once."""
    return one == other or other in tables.phase(one, 23) or one in tables.phase(other, 23)


def movement_of(signal: MappedSignal, link: Link) -> MappedMovement:
    """Returns the movement of a link."""
    return next(it for it in signal.movements if link.name in it.links)


class Side(NamedTuple):
    """A link of a pair whose paths cross, its movement, and a phase under which it has the right of way or a green that
    yields."""

    link: Link
    movement: MappedMovement
    phase: int


def lets_go(network: Network, one: Side, other: Side) -> bool:
    """Tells whether a link under a phase gives way to another. SUMO has to let it, and the map has to name the other
    movement, or the link has to turn under its permissive phase and meet opposing vehicles or pedestrians."""
    if not network.gives_way(one.link, other.link):
        return False
    if one.movement.yields_to(other.movement.name):
        return True
    return one.phase == one.movement.permissive and network.meets(one.link, other.link)


def pairs(signal: MappedSignal, tables: Tables, a: Link, b: Link) -> Iterator[tuple[Side, Side]]:
    """Yields two links under each two phases of theirs that may be on at once."""
    one, other = movement_of(signal, a), movement_of(signal, b)
    for p, q in itertools.product(one.phases(), other.phases()):
        if may_be_on(p, q, tables):
            yield Side(a, one, p), Side(b, other, q)


def clashes(signal: MappedSignal, network: Network, tables: Tables) -> Iterator[tuple[Side, Side]]:
    """Yields pairs of links whose paths cross, with phases that may be on at once, under which neither gives way."""
    for a, b in network.conflicts(signal.id):
        for one, other in pairs(signal, tables, a, b):
            if not (lets_go(network, one, other) or lets_go(network, other, one)):
                yield one, other


def yielding_in(street: Map, network: Network, scenario: dict[str, Any]) -> Callable[[Link, Link], bool]:
    """Returns a function that tells whether a link has a phase under which it yields to another link that may be on
    then."""
    tables = tables_of(scenario)
    signals = {it.id: it for it in street.signals}

    def may_yield(a: Link, b: Link) -> bool:
        signal = signals[a.signal]
        own = tables[signal.cabinet - 1]
        return any(lets_go(network, one, other) for one, other in pairs(signal, own, a, b))

    return may_yield


def check_conflicts(street: Map, signal: MappedSignal, network: Network, tables: Tables) -> None:
    """No two links whose paths cross have one phase, or two that may be on at once, unless one of them yields. Of
    several such pairs one with the same phase is named."""
    found = min(clashes(signal, network, tables), key=lambda it: it[0].phase != it[1].phase, default=None)
    if found is None:
        return
    one, other = found
    p, q = one.phase, other.phase
    on = f"both have phase {p}" if p == q else f"phases {p} and {q} may be on at once"
    names = [f"{it.movement.name} ({it.link.name})" for it in (one, other)]
    turn, first = who_yields(network, one, other)
    how = f'a wrong phase? yields = ["{first}"] of {turn} lets it give way' if turn else "SUMO lets neither give way"
    raise refused(street, f"signal {signal.id}", f"{names[0]} and {names[1]} cross, and {on} ({how})")


def who_yields(network: Network, one: Side, other: Side) -> tuple[str, str]:
    """Returns the name of the movement that SUMO lets give way, and to which; none if SUMO lets neither."""
    for a, b in ((one, other), (other, one)):
        if network.gives_way(a.link, b.link) and not a.movement.walk:
            return a.movement.name, b.movement.name
    return "", ""
