"""Volumes that were entered for an approach within the street, against the vehicles that reach it from neighbours."""

from collections.abc import Iterator

from .demand import LONGEST
from .volumes import Flow, Volumes

Approach = tuple[int, str]

MOST = 1 / 3
"""A larger part of what was entered may not be missing, or arrive in addition."""

LEAST = 1.0
"""Changes below this number of vehicles an hour end the count."""


def arriving(volumes: Volumes) -> dict[Approach, float]:
    """Returns how many vehicles an hour arrive at each approach to which movements lead, without profiles: vehicles
    divide among the movements of an approach by their volumes, and drive on by their shares."""
    entered = entered_at(volumes)
    fed = {(it.onward.cabinet, it.onward.approach) for it in volumes.flows if it.onward and it.onward.share > 0}

    def served(it: Flow, found: dict[Approach, float]) -> float:
        here = (it.cabinet, it.approach)
        return found[here] * it.volume / entered[here] if here in fed and entered[here] else it.volume

    found = dict.fromkeys(fed, 0.0)
    for _ in range(LONGEST):
        new = dict.fromkeys(fed, 0.0)
        for it in volumes.flows:
            if it.onward and it.onward.share > 0:
                new[it.onward.cabinet, it.onward.approach] += it.onward.share * served(it, found)
        is_done = all(abs(new[it] - found[it]) < LEAST for it in fed)
        found = new
        if is_done:
            break
    return found


def entered_at(volumes: Volumes) -> dict[Approach, float]:
    """Returns how many vehicles an hour were entered for each approach."""
    found: dict[Approach, float] = {}
    for it in volumes.flows:
        found[it.cabinet, it.approach] = found.get((it.cabinet, it.approach), 0.0) + it.volume
    return found


def doubts(volumes: Volumes) -> Iterator[str]:
    """Yields a line for each approach at which many fewer, or many more, vehicles arrive than were entered."""
    entered, found = entered_at(volumes), arriving(volumes)
    for place, arrive in sorted(found.items()):
        if abs(entered[place] - arrive) <= MOST * entered[place]:
            continue
        leading = (it for it in volumes.flows if it.onward and (it.onward.cabinet, it.onward.approach) == place)
        whence = sorted({it.cabinet for it in leading})
        cabinets = f"cabinet{'s' * (len(whence) > 1)} {' and '.join(map(str, whence))}"
        hint = "movements need `to`" if arrive < entered[place] else "`share` is too large, or volumes are too small"
        yield (
            f"cabinet {place[0]} {place[1]}: {entered[place]:g} entered, about {arrive:.0f} an hour arrive from "
            f"{cabinets}; {hint}"
        )
