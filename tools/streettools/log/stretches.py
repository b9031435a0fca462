"""Stretches of a cabinet's rows within which time rises and nothing is missing: rows are put in order, duplicates are
dropped, and a stretch ends where the clock is set back, where there are no rows for long, and in flash."""

from collections.abc import Iterator
from typing import Any

import numpy as np

from ..shared import event_codes as codes
from . import times
from .findings import Findings

JUMP = 20
"""A row this many ticks before the one above it is out of order, or the clock was set back."""
AFTER_JUMP = 5
"""The clock was set back if this many rows after the jump stay before it."""
MOST_JUMPS = 1000
"""If there are more jumps than one in this many rows, and more than ten, the log isn't in the order of time at all."""


def back_steps(ticks: Any) -> Any:
    """Returns the places of rows whose time is before that of the row above."""
    return np.flatnonzero(np.diff(ticks) < 0) + 1


def jumps_of(ticks: Any, back: Any) -> list[int]:
    """Returns the places at which the clock was set back."""
    found = []
    for at in back:
        before = ticks[at - 1]
        later = ticks[at : at + AFTER_JUMP]
        if before - ticks[at] > JUMP and len(later) == AFTER_JUMP and later.max() < before:
            found.append(int(at))
    return found


def runs(rows: Any, cabinet: int, findings: Findings) -> Iterator[Any]:
    """Yields the rows between the times at which the clock was set back, each in the order of time."""
    ticks = rows["tick"]
    back = back_steps(ticks)
    jumps = jumps_of(ticks, back)
    if len(jumps) > max(10, len(rows) // MOST_JUMPS):
        jumps = []
    in_order = [int(at) for at in back if int(at) not in set(jumps)]
    if in_order:
        findings.add("order", where(ticks[in_order[0]]), cabinet, len(in_order))
    for at in jumps:
        findings.add("jump", f"{where(ticks[at - 1])} to {where(ticks[at])}", cabinet)
    for part in np.split(rows, jumps):
        yield part[np.argsort(part["tick"], kind="stable")] if in_order else part


def without_duplicates(rows: Any, cabinet: int, findings: Findings) -> Any:
    """Returns rows in the order of time without those that are there twice."""
    order = np.lexsort((rows["parameter"], rows["code"], rows["tick"]))
    ordered = rows[order]
    twice = np.zeros(len(rows), bool)
    twice[order[1:]] = ordered[1:] == ordered[:-1]
    if twice.any():
        findings.add("duplicate", where(rows["tick"][np.argmax(twice)]), cabinet, int(twice.sum()))
    return rows[~twice]


def where(tick: int) -> str:
    """Returns the time of day of a tick."""
    return times.time_text(int(tick))


def length_text(ticks: int) -> str:
    """Returns a length of time in words."""
    return f"{ticks // 600} min" if ticks >= 1200 else f"{ticks // 10} s"


def cuts_of(rows: Any, hole: int, cabinet: int, findings: Findings) -> dict[int, bool]:
    """Returns the places at which a stretch may begin, and whether the cabinet is in flash from there on. Rows at the
    tick at which flash begins are those of how it is reached."""
    ticks = rows["tick"]
    cuts = {0: False}
    for at in (np.flatnonzero(np.diff(ticks) > hole) + 1).tolist():
        cuts[at] = False
        findings.add("hole", f"{length_text(int(ticks[at] - ticks[at - 1]))} from {where(ticks[at - 1])}", cabinet)
    for at in np.flatnonzero(rows["code"] == codes.FLASH_STATUS_CHANGE).tolist():
        in_flash = int(rows["parameter"][at]) not in (codes.NOT_FLASH, 0)
        cuts[int(np.searchsorted(ticks, ticks[at], "right" if in_flash else "left"))] = in_flash
        if in_flash:
            findings.add("flash", where(ticks[at]), cabinet)
    return cuts


def pieces(rows: Any, hole: int, cabinet: int, findings: Findings) -> Iterator[Any]:
    """Yields the rows between holes and times in flash; rows in flash are left out."""
    cuts = cuts_of(rows, hole, cabinet, findings)
    places = [*sorted(it for it in cuts if it < len(rows)), len(rows)]
    for begin, end in zip(places, places[1:]):
        if not cuts[begin]:
            yield rows[begin:end]


def stretches(rows: Any, hole: int, cabinet: int, findings: Findings) -> Iterator[Any]:
    """Yields the stretches of a cabinet's rows; `hole` is how many ticks without a row are a hole."""
    for run in runs(rows, cabinet, findings):
        yield from pieces(without_duplicates(run, cabinet, findings), hole, cabinet, findings)
