"""The coordination diagram with vehicles: their paths through the street over the coordinated greens and the bands."""

from itertools import accumulate
from typing import Any

from matplotlib.collections import LineCollection
from matplotlib.lines import Line2D
from matplotlib.patches import Patch

from ...look import coordination, pictures
from ...shared.fault import Fault
from ...shared.trace_reader import TraceReader
from .seen import View
from ..records import Kind, Study, Trip

Points = list[tuple[float, float]]
"""Seconds, and heights in the diagram."""
TURNS = (coordination.OUTBOUND, coordination.INBOUND)


def path_of(trip: Trip, heights: dict[int, float]) -> tuple[int, Points] | None:
    """Returns the way that a trip goes (0 outbound, 1 inbound) and its path: level where it waits, slanting where it
    drives. None where it doesn't pass two cabinets of the street."""
    passed = [it for it in trip.passages if it.cabinet in heights]
    if len(passed) < 2:
        return None
    points = [(at, heights[it.cabinet]) for it in passed for at in (it.arrived, it.released)]
    return int(heights[passed[-1].cabinet] < heights[passed[0].cabinet]), points


def draw_paths(axes: Any, study: Study, heights: dict[int, float], view: View) -> None:
    """Draws the paths of all vehicles that pass two cabinets or more."""
    found: tuple[list[Points], list[Points]] = ([], [])
    for trip in study.trips:
        path = path_of(trip, heights) if trip.kind is not Kind.PERSON else None
        if path and path[1][0][0] < view.end and path[1][-1][0] > view.start:
            found[path[0]].append(path[1])
    for way, (paths, name) in enumerate(zip(found, ("outbound", "inbound"))):
        look = {"colors": TURNS[way], "linewidths": 0.6, "alpha": 0.8, "zorder": 3, "gid": f"{name}-paths"}
        axes.add_collection(LineCollection(paths, **look))


def corners_of(study: Study, cabinets: list[int], travel: list[int], view: View) -> list[coordination.Corner]:
    """Returns the coordinated greens of the cabinets, by the trace."""
    look = coordination.View(round(10 * view.start), round(10 * view.end), sum(travel), None, view.names)
    with open(study.trace, "rb") as stream:
        reader = TraceReader(stream)
        wrong = next((it for it in cabinets if not 1 <= it <= reader.cabinets), None)
        if wrong is not None:
            raise Fault(f"the trace has no cabinet {wrong}")
        return coordination.collect(reader, cabinets, look)


def draw(study: Study, cabinets: list[int], travel: list[int], view: View, path: str) -> None:
    """Draws the diagram of a street and writes it; `travel` has the ticks from each cabinet to the next."""
    if len(set(cabinets)) < 2 or len(set(cabinets)) < len(cabinets):
        raise Fault("paths need two cabinets or more, none of them twice")
    if len(travel) != len(cabinets) - 1:
        raise Fault(f"{len(cabinets)} cabinets have {len(cabinets) - 1} times of travel between them")
    corners = corners_of(study, cabinets, travel, view)
    heights = list(accumulate(travel, initial=0)) if all(travel) else list(range(len(cabinets)))
    spacing = min(high - low for low, high in zip(heights, heights[1:])) if len(heights) > 1 else 1
    title = "Coordinated greens, bands, and the paths of vehicles: above each line outbound, below it inbound"
    labels = [it.name() for it in corners]
    drawn, (axes,) = pictures.figure(1.5 + 1.1 * len(corners), title, labels=labels)
    pictures.time_axis(axes, 10 * view.start, 10 * view.end, view.began)
    for corner, height in zip(corners, heights):
        coordination.draw_corner(axes, corner, height, 0.13 * spacing)
    found = coordination.ways(corners, travel)
    coordination.draw_bands(axes, found, heights, round(10 * view.start), round(10 * view.end))
    draw_paths(axes, study, dict(zip(cabinets, heights)), view)
    axes.set_ylim(heights[0] - 0.3 * spacing, heights[-1] + 0.3 * spacing)
    axes.set_yticks(heights, [pictures.escaped(it) for it in labels])
    axes.tick_params(axis="y", length=0)
    axes.spines["left"].set_visible(False)
    pictures.legend(drawn, keys())
    pictures.save(drawn, path)


def keys() -> list[Patch | Line2D]:
    """Returns what explains the colours and the lines."""
    colours = {"green": pictures.GREEN, "yellow": pictures.YELLOW, "red": coordination.STOP}
    found: list[Patch | Line2D] = [Patch(color=colour, label=text) for text, colour in colours.items()]
    for colour, name in zip(TURNS, ("outbound", "inbound")):
        found.append(Patch(color=colour, alpha=0.25, label=f"{name} band"))
        found.append(Line2D([], [], color=colour, linewidth=0.8, label=f"vehicles {name}"))
    return found
