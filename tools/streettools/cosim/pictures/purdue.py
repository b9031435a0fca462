"""The Purdue coordination diagram: when in its cycle each vehicle reaches the stop line, and when green was."""

from bisect import bisect_right
from typing import Any

from matplotlib.lines import Line2D

from ...look import pictures
from .seen import ON_GREEN, ON_RED, Cycle, View, cycles, label, room, turns
from ..records import Movement, Passage, Study


def placed(found: list[Cycle], passages: list[Passage]) -> list[tuple[float, float, bool]]:
    """Returns each arrival as its second, its second in the cycle, and whether green was shown."""
    starts = [it.start for it in found]
    points = []
    for it in passages:
        place = bisect_right(starts, it.arrived) - 1
        if place >= 0 and it.arrived < found[place].end:
            points.append((it.arrived, it.arrived - found[place].start, it.on_green))
    return points


def told(movement: Movement, passages: list[Passage]) -> str:
    """Returns the label of a movement: its name, and how many of its vehicles come on green."""
    name = f"{movement.name}\nphase {', '.join(map(str, movement.phases()))}"
    if not passages:
        return name
    return f"{name}\n{100 * sum(it.on_green for it in passages) / len(passages):.0f} % on green"


def draw_movement(axes: Any, found: list[Cycle], passages: list[Passage], name: str) -> None:
    """Draws the cycles and the arrivals of a movement."""
    ends = [it.end for it in found]
    for which, colour in (("green", pictures.GREEN), ("yellow", pictures.YELLOW), ("end", pictures.CLEARANCE)):
        seconds = [getattr(it, which) - it.start for it in found]
        axes.plot(ends, seconds, color=colour, linewidth=1.2, gid=f"{name}-{which}", drawstyle="steps-pre")
    points = placed(found, passages)
    for is_green, colour in ((True, ON_GREEN), (False, ON_RED)):
        shown = [it for it in points if it[2] == is_green]
        group = f"{name}-on-{'green' if is_green else 'red'}"
        axes.plot([it[0] for it in shown], [it[1] for it in shown], ".", color=colour, markersize=2.4, gid=group)
    axes.set_ylim(0, max((it.end - it.start for it in found), default=1) * 1.05)


def draw(study: Study, movements: list[Movement], view: View, path: str) -> None:
    """Draws the diagram of some movements of a cabinet, one above the other, and writes it."""
    rows = [(it, cycles_in(study, it, view), passages_in(study, it, view)) for it in movements]
    labels = [told(it, passages) for it, _, passages in rows]
    where = view.cabinet(movements[0].cabinet)
    title = f"Purdue coordination diagram, {where}: seconds since red began at which vehicles reach the stop line"
    drawn, all_axes = pictures.figure(1.1 + 1.7 * len(rows), title, len(rows), labels=room(labels))
    for axes, (it, found, passages), text in zip(all_axes, rows, labels):
        draw_movement(axes, found, passages, it.name)
        label(axes, text)
    pictures.time_axis(all_axes[-1], 10 * view.start, 10 * view.end, view.began)
    pictures.legend(drawn, keys())
    pictures.save(drawn, path)


def passages_in(study: Study, movement: Movement, view: View) -> list[Passage]:
    """Returns the passages of a movement that reach the stop line in what is looked at."""
    key = (movement.cabinet, movement.name)
    return [it for it in study.passages if (it.cabinet, it.movement) == key and view.start <= it.arrived < view.end]


def cycles_in(study: Study, movement: Movement, view: View) -> list[Cycle]:
    """Returns the cycles of a movement that reach into what is looked at."""
    found = cycles(turns(study.trace, movement.cabinet, movement.phases()))
    return [it for it in found if view.start < it.end and it.start < view.end]


def keys() -> list[Line2D]:
    """Returns what explains the lines and the dots."""
    lines = {"green begins": pictures.GREEN, "yellow begins": pictures.YELLOW}
    lines["red begins: the end of the cycle"] = pictures.CLEARANCE
    dots = {"comes on green": ON_GREEN, "comes on yellow or red": ON_RED}
    return [Line2D([], [], color=colour, label=text) for text, colour in lines.items()] + [
        Line2D([], [], color=colour, marker=".", linestyle="", label=text) for text, colour in dots.items()
    ]
