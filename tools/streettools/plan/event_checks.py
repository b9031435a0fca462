"""Requests of buses and other events that do nothing, or that count ticks where seconds were meant."""

from collections.abc import Iterator

from ..shared.tables import Tables
from .findings import Finding, warn
from .layout import Layout
from .reading import Street
from .sentences import many

SOON = 60
"""A vehicle that arrives within this number of ticks, and that asks at all, was probably meant to arrive in seconds."""


def coordinated(tables: Tables) -> list[int]:
    """Returns the phases that some defined pattern coordinates."""
    return sorted({phase for pattern in tables.patterns() for phase in Layout(tables, pattern).coordinated})


def requests(street: Street) -> dict[int, list[dict[str, int]]]:
    """Returns the priority requests by cabinet, without cancels."""
    found: dict[int, list[dict[str, int]]] = {}
    for it in street.scenario.get("priority", ()):
        if "phase" in it:
            found.setdefault(it["cabinet"], []).append(it)
    return found


def of_requests(street: Street, tables: list[Tables]) -> Iterator[Finding]:
    """Yields the requests for phases that no pattern coordinates, which have no effect."""
    names = street.names
    for number, line in sorted(requests(street).items()):
        pair = coordinated(tables[number - 1])
        for phase in sorted({it["phase"] for it in line} - set(pair)):
            count = sum(it["phase"] == phase for it in line)
            what = "a priority request has" if count == 1 else f"{count} priority requests have"
            ask = f"ask for {many(pair)}" if pair else "no pattern is defined here"
            yield warn(names.called(number), (
                f"{what} no effect, for {names.intersection(number).phase_name(phase)}: a request counts only for a "
                f"coordinated phase; {ask}"
            ))  # fmt: skip


def in_ticks(street: Street) -> Iterator[Finding]:
    """Yields arrivals of a sheet's requests that read as seconds."""
    for number, line in sorted(requests(street).items()) if street.numbers is not None else ():
        for arrival in sorted({it["arrival"] for it in line if 0 < it["arrival"] <= SOON}):
            yield warn(street.names.called(number), (
                f"a priority request has arrival = {arrival}, which is {arrival / 10:g} s: events count ticks of "
                f"0.1 s; if {arrival} s are meant, write arrival = {10 * arrival}, and the departure in ticks, too"
            ))  # fmt: skip


def all_of(street: Street, tables: list[Tables]) -> Iterator[Finding]:
    """Yields the doubts about the events of a street."""
    yield from of_requests(street, tables)
    yield from in_ticks(street)
