"""Queues over time: how many vehicles wait before each stop line of a cabinet, and when each has green."""

from typing import Any

from matplotlib.lines import Line2D
from matplotlib.patches import Patch

from ...look import pictures
from .seen import Turn, View, label, room, turns
from ..records import Movement, Study


def steps(study: Study, movement: Movement, view: View) -> tuple[list[float], list[int]]:
    """Returns the queue of a movement as seconds and numbers, each up to the next."""
    rows = [it for it in study.queues if (it.cabinet, it.movement) == (movement.cabinet, movement.name)]
    before = [it.vehicles for it in rows if it.second <= view.start]
    shown = [it for it in rows if view.start < it.second < view.end]
    numbers = [before[-1] if before else 0, *(it.vehicles for it in shown)]
    return [view.start, *(it.second for it in shown), view.end], [*numbers, numbers[-1]]


def greens(seen: list[Turn], view: View) -> list[tuple[float, float]]:
    """Returns the greens of a movement as spans of ticks."""
    ends = [it.second for it in seen[1:]] + [view.end]
    spans = [(max(it.second, view.start), min(end, view.end)) for it, end in zip(seen, ends) if it.letter == "G"]
    return [(10 * start, 10 * end) for start, end in spans if start < end]


def named(movement: Movement) -> str:
    """Returns the label of a movement."""
    return f"{movement.name}\nphase {', '.join(map(str, movement.phases()))}"


def draw_movement(axes: Any, study: Study, movement: Movement, view: View) -> None:
    """Draws the queue of a movement over its greens."""
    seconds, numbers = steps(study, movement, view)
    top = max(1, *numbers) * 1.15
    spans = greens(turns(study.trace, movement.cabinet, movement.phases()), view)
    pictures.bars(axes, spans, 0, top, f"{movement.name}-green", facecolor=pictures.GREEN, alpha=0.18, linewidth=0)
    axes.step(seconds, numbers, where="post", color=pictures.INK, linewidth=0.9, gid=f"{movement.name}-queue")
    axes.set_ylim(0, top)
    label(axes, named(movement))
    axes.yaxis.get_major_locator().set_params(integer=True, nbins=4)


def draw(study: Study, movements: list[Movement], view: View, path: str) -> None:
    """Draws the queues of some movements of a cabinet, and writes them."""
    title = f"Queues, {view.cabinet(movements[0].cabinet)}: vehicles before the stop line"
    labels = room([named(it) for it in movements])
    drawn, all_axes = pictures.figure(1.1 + 0.95 * len(movements), title, len(movements), labels=labels)
    for axes, it in zip(all_axes, movements):
        draw_movement(axes, study, it, view)
    pictures.time_axis(all_axes[-1], 10 * view.start, 10 * view.end, view.began)
    line = Line2D([], [], color=pictures.INK, label="vehicles in the queue")
    pictures.legend(drawn, [line, Patch(color=pictures.GREEN, alpha=0.18, label="green")])
    pictures.save(drawn, path)
