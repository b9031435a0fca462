"""The time-space diagram of a street: the coordinated greens of several cabinets, and the bands through them.

Outbound traffic has ring 1's coordinated phases from the first cabinet to the last, inbound traffic ring 2's in the
other direction. The bands are those of the greens that were shown; those of a plan can be drawn in addition.
"""

import textwrap
from dataclasses import dataclass
from itertools import accumulate

from matplotlib.patches import Patch, Polygon

from streettools.shared.bands import common, delays_of
from streettools.shared.cabinet import mode_of, opened
from streettools.shared.plans import coordinated
from streettools.shared.trace_records import Ended, Frame, RoundEnd

from . import pictures, planned
from .called import Called

OUTBOUND, INBOUND = "#1c7ed6", "#e8590c"
STOP = "#f1b0b7"
COLOURS = {"G": pictures.GREEN, "Y": pictures.YELLOW}


@dataclass
class View:
    """What is shown: the first and the last tick, for how many ticks around them bands are looked for, the phases that
    are shown instead of the coordinated ones, and what things are called."""

    start: int
    end: int
    margin: int
    phases: tuple[int, int] | None
    names: Called


class Corner:
    """A cabinet of the street: `spans` has for each way (0 outbound, 1 inbound) and colour the ticks at which it is
    shown, whole and as far as `margin` ticks around the shown ones, for the bands that begin there."""

    def __init__(self, scenario, number, view):
        self.cabinet, self.names = opened(scenario, number), view.names
        self.start, self.end, self.margin = view.start, view.end, view.margin
        self.fixed = view.phases
        tables = self.cabinet.tables
        chosen = [self.cabinet.opening, *tables.patterns()]
        pairs = (coordinated(tables, it) for it in chosen if it in tables.patterns())
        self.pair = self.fixed or self.real(next((it for it in pairs if it), None) or (2, 6))
        self.used, self.beat = [self.pair], None
        self.now = [("R", 0), ("R", 0)]
        self.spans = [{"G": [], "Y": []}, {"G": [], "Y": []}]

    def real(self, pair):
        """Returns the phases to show for coordinated ones: for a partner the other one, which it is green with."""
        partners = self.names.partners(self.cabinet.number)
        one, other = pair
        return (other if one in partners else one, one if other in partners else other)

    def take(self, happening):
        """Processes a frame or a download."""
        if isinstance(happening, Ended):
            self.cabinet.ended(happening.load)
        if isinstance(happening, Frame):
            self.follow(happening)
            for way, phase in enumerate(self.pair):
                self.show(way, happening.vehicles[phase - 1], happening.tick)

    def follow(self, frame):
        """Processes the coordinated phases of the pattern that runs, and its cycle."""
        mode = mode_of(frame.mode)
        plan = self.cabinet.plan(mode.number) if mode.letter in "CK" else None
        if plan and frame.tick <= self.end:
            self.beat = planned.beat(plan, frame)
        if plan and not self.fixed and self.real(plan.coordinated) != self.pair:
            self.pair = self.real(plan.coordinated)
            if frame.tick >= self.start:
                self.used.append(self.pair)
            else:
                self.used = [self.pair]

    def show(self, way, letter, tick):
        """Ends what a way showed before, if it differs, and begins what it shows now."""
        before, since = self.now[way]
        if letter == before:
            return
        self.now[way] = (letter, tick)
        if before in COLOURS and tick > self.start - self.margin and since < self.end + self.margin:
            self.spans[way][before].append((since, tick))

    def seen(self, way, letter):
        """Returns the spans of a colour that reach into what is looked at."""
        return [(since, end) for since, end in self.spans[way][letter] if since < self.end and end > self.start]

    def close(self, last):
        """Ends, at the end of the trace, what is shown then."""
        for way in (0, 1):
            self.show(way, "R", last)

    def name(self):
        """Returns the cabinet with its coordinated phases."""
        number, pairs = self.cabinet.number, dict.fromkeys(self.used)
        street = "\n".join(textwrap.wrap(self.names.street(number), 28)) or f"cabinet {number}"
        called = dict.fromkeys(f"{one}, {other}" if one != other else f"{one}" for one, other in pairs)
        return f"{street}\nphase{'s' * any(one != other for one, other in pairs)} " + " then ".join(called)


def collect(reader, numbers, view):
    """Reads the trace and returns each cabinet's coordinated greens, as far as a margin around what is looked at."""
    corners = {number: Corner(reader.scenario, number, view) for number in numbers}
    last = 0
    for happening in reader.happenings():
        if isinstance(happening, RoundEnd):
            last = happening.tick
        elif happening.cabinet in corners:
            corners[happening.cabinet].take(happening)
    for corner in corners.values():
        corner.close(last)
    return [corners[number] for number in numbers]


def bands(greens, delays):
    """Returns when a vehicle may start so as to meet green at each place, as spans of ticks.

    `greens` has each place's green, and `delays` the ticks from the start until the vehicle is there."""
    spans = None
    for green, delay in zip(greens, delays):
        moved = [(start - delay, end - delay) for start, end in green]
        spans = moved if spans is None else common(spans, moved)
    return spans


def ways(corners, travel):
    """Returns for outbound and inbound the bands, with the delay at each cabinet in the order of the street."""
    found = []
    for way, delays in enumerate(delays_of(travel)):
        found.append((bands([corner.spans[way]["G"] for corner in corners], delays), delays))
    return found


def draw_corner(axes, corner, height, tall):
    """Draws a cabinet: outbound above the line, inbound below it."""
    for way, low in ((0, height + 0.1 * tall), (1, height - tall)):
        name = f"cabinet-{corner.cabinet.number}-{('outbound', 'inbound')[way]}"
        pictures.bars(axes, [(corner.start, corner.end)], low, 0.9 * tall, f"{name}-red", facecolor=STOP)
        for letter, colour in COLOURS.items():
            shown = corner.seen(way, letter)
            look = {"facecolor": colour, "edgecolor": "white", "linewidth": 0.3}
            pictures.bars(axes, shown, low, 0.9 * tall, f"{name}-{'green' if letter == 'G' else 'yellow'}", **look)


def draw_bands(axes, found, heights, start, end):
    """Draws the bands of both ways, with their widths in seconds if they have room; with only two cabinets, one width
    is higher than the other."""
    for (spans, delays), colour, name in zip(found, (OUTBOUND, INBOUND), ("outbound", "inbound")):
        for low, high in spans:
            if low >= end or high + max(delays) <= start:
                continue
            left = [((low + delay) / 10, height) for delay, height in zip(delays, heights)]
            right = [((high + delay) / 10, height) for delay, height in zip(delays, heights)]
            axes.add_patch(Polygon(left + right[::-1], closed=True, facecolor=colour, alpha=0.25, linewidth=0,
                                   zorder=0.5, gid=f"{name}-band-{low}"))  # fmt: skip
            text = f"{(high - low) / 10:g} s"
            place = 0 if name == "outbound" else -2
            share = 0.5 if len(heights) > 2 else 0.6 if name == "outbound" else 0.4
            x = (low + high + delays[place] + delays[place + 1]) / 20
            if pictures.room(axes, low, high) > pictures.width_of(text, 8) and start <= 10 * x <= end:
                y = (1 - share) * heights[place] + share * heights[place + 1]
                axes.text(x, y, text, ha="center", va="center", fontsize=8, color=pictures.INK)


def draw_planned(axes, found, delays, heights, corner):
    """Draws dashed outlines of a plan's bands, outbound and inbound, cycle by cycle; `corner` has the cabinet whose
    clock is used. Returns their entries for the legend."""
    keys = []
    for band, colour, name, away in zip(found, (OUTBOUND, INBOUND), ("outbound", "inbound"), delays):
        look = {"facecolor": "none", "edgecolor": colour, "linewidth": 1.2, "linestyle": (0, (4, 2))}
        text = f"{name} by the plan, {band.width / 10:g} s" if band else f"none {name} by the plan"
        keys.append(Patch(label=text, **look if band else {"color": colour, "alpha": 0}))
        if not band:
            continue
        if corner.beat is None:
            raise planned.NoBands(
                f"cabinet {corner.cabinet.number} is never coordinated in this time range, so the times of its cycle "
                "are unknown"
            )
        for low, high in planned.spans(band, corner.beat, corner.start - max(away), corner.end):
            left = [((low + it) / 10, height) for it, height in zip(away, heights)]
            right = [((high + it) / 10, height) for it, height in zip(away, heights)]
            axes.add_patch(Polygon(left + right[::-1], closed=True, zorder=4, gid=f"{name}-planned-{low}", **look))
    return keys


def left_out(corners):
    """Returns the words that tell which partner phases are left out, empty if none is."""
    told = [(it.cabinet.number, it.names.left_out(it.cabinet.number)) for it in corners if not it.fixed]
    return "; ".join(f"cabinet {number} {words}" for number, words in told if words)


def draw_street(axes, corners, travel, labels, plan=None):
    """Draws the cabinets of a street on some axes, with the bands if `travel` is known, and returns the entries of the
    legend."""
    start, end = corners[0].start, corners[0].end
    even = not travel or not sum(travel) or min(travel) * len(travel) < 0.6 * sum(travel)
    heights = list(range(len(corners))) if even else list(accumulate(travel, initial=0))
    spacing = 1 if even else min(travel)
    for corner, height in zip(corners, heights):
        draw_corner(axes, corner, height, 0.16 * spacing)
    keys = [
        Patch(color=pictures.GREEN, label="green"),
        Patch(color=pictures.YELLOW, label="yellow"),
        Patch(color=STOP, label="red"),
    ]
    if travel:
        found = ways(corners, travel)
        draw_bands(axes, found, heights, start, end)
        for (spans, _), colour, name in zip(found, (OUTBOUND, INBOUND), ("outbound", "inbound")):
            keys.append(
                Patch(color=colour, alpha=0.25 if spans else 0, label=f"{name} band" if spans else f"no {name} band")
            )
        if plan:
            keys += draw_planned(axes, plan, [delays for _, delays in found], heights, corners[0])
    axes.set_ylim(heights[0] - 0.35 * spacing, heights[-1] + 0.35 * spacing)
    axes.set_yticks(heights, [pictures.escaped(it) for it in labels])
    axes.tick_params(axis="y", length=0)
    axes.spines["left"].set_visible(False)
    return keys


def draw(corners, travel, path, plan=None, began=None):
    """Draws the time-space diagram and writes it; `travel` has the ticks from each cabinet to the next, or is None, and
    `plan` a plan's widest bands, outbound and inbound."""
    start, end = corners[0].start, corners[0].end
    tall = 1.5 + 0.85 * len(corners)
    title = f"Coordinated greens, ticks {start} to {end}: above each line outbound (ring 1), below it inbound (ring 2)"
    if corners[0].names.title():
        title = f"{corners[0].names.title()}: {title[0].lower()}{title[1:]}"
    aways = list(accumulate(travel or [0] * (len(corners) - 1), initial=0))
    labels = [it.name() + (f"\n{away / 10:g} s away" if away else "") for it, away in zip(corners, aways)]
    drawn, (axes,) = pictures.figure(tall, title, under=left_out(corners), labels=labels)
    pictures.time_axis(axes, start, end, began)
    keys = draw_street(axes, corners, travel, labels, plan)
    pictures.legend(drawn, keys)
    pictures.save(drawn, path)
