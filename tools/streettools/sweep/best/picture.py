"""The picture of a search: the time-space diagram of the present plan, and below it that of the best plan."""

import io
from dataclasses import dataclass
from itertools import accumulate

from ...look import coordination, pictures
from ...look.called import Called
from ...shared.bands import Band
from ...shared.trace_reader import TraceReader

CYCLES, KEYS = 3, 5
"""Cycles that are shown, at the end of a run, and entries of the legend that all plans share."""


TITLES, GAP = 0.62, 0.35
"""Inches above the first diagram, and the gap between two as a share of their height."""


@dataclass(frozen=True)
class Drawn:
    """A plan that is drawn: what it is called, the trace of a run, and its widest bands, outbound and inbound, None if
    they aren't known."""

    title: str
    trace: bytes
    bands: list[Band | None] | None


@dataclass(frozen=True)
class Street:
    """The cabinets that are drawn, the ticks of travel from each to the next, None if they aren't known, the first and
    the last tick, and what things are called."""

    numbers: list[int]
    travel: list[int] | None
    span: tuple[int, int]
    names: Called


def window(cycle: int, end: int) -> tuple[int, int]:
    """Returns the ticks that are shown: the last cycles of a run."""
    return max(0, end - CYCLES * cycle), end


def draw(plans: list[Drawn], street: Street, path: str) -> None:
    """Draws the coordinated greens of a street under each plan, with the bands, and dashed those of the plan."""
    travel, count = street.travel, len(street.numbers)
    view = coordination.View(*street.span, sum(travel or [0]), None, street.names)
    found = [coordination.collect(TraceReader(io.BytesIO(it.trace)), street.numbers, view) for it in plans]
    aways = list(accumulate(travel or [0] * (count - 1), initial=0))
    labels = [it.name() + (f"\n{away / 10:g} s away" if away else "") for it, away in zip(found[0], aways)]
    title = "Coordinated greens: above each line outbound (ring 1), below it inbound (ring 2); dashed the plan's bands"
    tall = len(plans) * (0.6 + 0.55 * count) + 1.3
    drawn, axes = pictures.figure(tall, title, len(plans), labels=labels)
    drawn.subplots_adjust(top=1 - TITLES / tall, hspace=GAP)
    keys: list[object] = []
    for it, corners, part in zip(plans, found, axes, strict=True):
        plan = it.bands if corners[0].beat is not None else None
        keys = coordination.draw_street(part, corners, travel, labels, plan)
        part.set_title(it.title, loc="left", fontsize=9, color=pictures.INK)
    pictures.time_axis(axes[-1], *street.span)
    pictures.legend(drawn, keys[: KEYS if len(plans) > 1 else None])
    pictures.save(drawn, path)
