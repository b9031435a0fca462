"""The share of the time in which coordination was undisturbed for as long as its promise asks: the time of which the
proof says that a cabinet is on its offset.

docs/MEASURES.md, "Undisturbed coordination". The definitions are those of the model (model/promises/offset.py).
"""

from collections.abc import Mapping

from ..shared.independent import has_model
from ..shared.session_record import MOST_TRACE


def shares(trace: bytes, start: float, end: float) -> dict[int, float]:
    """Returns the share of each cabinet from one second of a trace to another; nothing without the model, and of a text
    that `check` wouldn't take."""
    if not has_model() or len(trace) > MOST_TRACE or start >= end:
        return {}
    from model.promises import offset, told
    from model.shapes import Refused

    try:
        _, streets = told.streets_of(trace)
    except (told.Untold, Refused):
        return {}
    before, until = round(10 * start), round(10 * end)
    found = {}
    for street in streets:
        spans = [(max(it.first, before + 1), min(it.last, until)) for it in offset.settled(street)]
        found[street.number] = sum(last - first + 1 for first, last in spans if first <= last) / (until - before)
    return found


def mean(found: Mapping[int, float]) -> float | None:
    """Returns the share of the time of all cabinets together; None where it isn't known."""
    return sum(found.values()) / len(found) if found else None
