"""Through bands: the greatest of a plan, as `arterial band` writes them, and the spans that greens have in common."""

import re
from typing import NamedTuple

Spans = list[tuple[int, int]]
NUMBER = "(0|[1-9][0-9]{0,8})"
FORM = re.compile("outbound (none|{0} {0} {0} {0})\ninbound (none|{0} {0} {0} {0})\n".format(NUMBER))


class Band(NamedTuple):
    """A band: when it begins at the first cabinet that is passed, as a time of the cycle, and its width, in ticks."""

    start: int
    width: int


def read_bands(text: str) -> list[Band | None] | None:
    """Returns the bands that a text tells, outbound and inbound, each None where there is none; None where the text
    isn't what `arterial band` writes."""
    found = FORM.fullmatch(text)
    if not found:
        return None
    return [None if found[at] == "none" else Band(int(found[at + 1]), int(found[at + 2])) for at in (1, 6)]


def common(one: Spans, other: Spans) -> Spans:
    """Returns the spans that two rising lists of spans have in common."""
    found, i, j = [], 0, 0
    while i < len(one) and j < len(other):
        low, high = max(one[i][0], other[j][0]), min(one[i][1], other[j][1])
        if low < high:
            found.append((low, high))
        if one[i][1] < other[j][1]:
            i += 1
        else:
            j += 1
    return found


def delays_of(travel: list[int] | tuple[int, ...]) -> tuple[list[int], list[int]]:
    """Returns how long after its start a vehicle is at each cabinet, outbound and inbound, by the times from each
    cabinet to the next."""
    reached = [sum(travel[:at]) for at in range(len(travel) + 1)]
    return reached, [reached[-1] - it for it in reached]
