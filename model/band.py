"""The widest progression bands of a street's plan, each way.

docs/BANDS.md. Each time of the cycle is tested.
"""

from collections.abc import Iterator
from dataclasses import dataclass
from typing import Any

from model.plan import is_defined, pattern, plan
from model.scenario import Scenario
from model.scenario_read import MOST_BYTES, content, read_value
from model.shapes import Named, field_fault, fields, limit_fault, list_of, whole
from model.tables import Tables, rows

ASKED = [
    Named("scenario", content),
    Named("section", whole(1, 8)),
    Named("pattern", whole(1, 48)),
    Named("travel", list_of(whole(0, 864_000), 0, 1 << 24)),
]


@dataclass(frozen=True)
class Passage:
    """A cabinet as a vehicle passes it: its number, and how long after the first cabinet that it passes."""

    cabinet: int
    after: int
    tables: Tables


@dataclass(frozen=True)
class Street:
    """What is asked: the cabinets of a section in order, the times between them, and the pattern."""

    members: list[tuple[int, Tables]]
    pattern: int
    travel: list[int]

    @property
    def cycle(self) -> int:
        """Returns the cycle that all cabinets have."""
        return pattern(self.members[0][1], self.pattern).cycle

    def passages(self, is_inbound: bool) -> list[Passage]:
        """Returns the passages one way: outbound the first cabinet comes first, inbound the last."""
        legs = [
            sum(self.travel[place:]) if is_inbound else sum(self.travel[:place]) for place in range(len(self.members))
        ]
        return [Passage(number, after, tables) for (number, tables), after in zip(self.members, legs)]


def street_of(says: dict[str, Any]) -> Street:
    """Returns the street of a question; raises the fault if it can't have a band."""
    scenario: Scenario = says["scenario"]
    number = says["pattern"]
    members = [(n, it.tables) for n, it in enumerate(scenario.cabinets, 1) if it.section == says["section"]]
    if not members:
        raise limit_fault("section")
    if not all(is_defined(tables, number) for _, tables in members):
        raise limit_fault("pattern")
    if len({pattern(tables, number).cycle for _, tables in members}) > 1:
        raise field_fault("pattern")
    if len(says["travel"]) != len(members) - 1:
        raise limit_fault("travel")
    return Street(members, number, says["travel"])


def window(street: Street, tables: Tables, ring: int) -> set[int]:
    """Returns the times of the cycle within a cabinet's window: from its offset, less the shift, up to the force
    point of the coordinated phase of a ring."""
    laid = plan(tables, street.pattern)
    held = next(p for p in laid.coordinated if rows(tables)[p].ring == ring)
    return {(laid.offset - laid.shift + c) % laid.cycle for c in range(laid.force[held])}


def band_line(street: Street, is_inbound: bool) -> bytes:
    """Returns the line of the widest progression band one way; of equal ones, the earliest."""
    passages, cycle = street.passages(is_inbound), street.cycle
    windows = {it.cabinet: window(street, it.tables, 2 if is_inbound else 1) for it in passages}

    def closed(time: int) -> int | None:
        """Returns the first cabinet whose window lacks a time; None if the time is open."""
        return next((it.cabinet for it in passages if (time + it.after) % cycle not in windows[it.cabinet]), None)

    is_open = [closed(time) is None for time in range(cycle)]

    def width(start: int) -> int:
        """Returns how many times are open in a row from one on."""
        return next(n for n in range(cycle + 1) if not is_open[(start + n) % cycle])

    name = b"inbound" if is_inbound else b"outbound"
    if not any(is_open):
        return name + b" none"
    starts = [time for time in range(cycle) if is_open[time] and not is_open[time - 1]] + [0]
    start = max(sorted(starts), key=width)
    return b"%s %d %d %d %d" % (name, start, width(start), closed(start - 1), closed(start + width(start)))


def bands(data: bytes) -> Iterator[bytes]:
    """Yields the lines of both ways."""
    if len(data) > MOST_BYTES:
        raise limit_fault(".")
    street = street_of(fields(read_value(data), ".", ASKED))
    yield band_line(street, is_inbound=False)
    yield band_line(street, is_inbound=True)
