"""A picture of a sheet: a pattern's rings and barriers with the slot of each phase, what each phase needs of it, and
what is wrong."""

import textwrap
from dataclasses import dataclass

from matplotlib import pyplot as plt

from ..look.pictures import CLEARANCE, GREEN, YELLOW
from ..shared.pictures import FAINT, INK, STYLE, save
from ..shared.tables import Tables
from . import drawing, fields, rules
from ..shared.cells import value
from .layout import Layout, least_service
from .names import Intersection
from .pattern_rules import has_pair
from .pattern_sentences import sentences

WRONG, ZERO = "#c9302c", "#1c4f9c"
LIGHT, PALE = "#cfe8d6", "#f1f3f5"
LETTERS, INCH_LINES = 165, 0.19
SHORT = {"minimum": "min", "maximum": "max", "pedestrian": "ped", "none": "none"}
ROWS = {
    "min green": (4, 1), "passage": (5, 10), "max green": (6, 1), "yellow": (8, 10), "red clear": (9, 10),
    "walk": (2, 1), "ped clear": (3, 1),
}  # fmt: skip


@dataclass(frozen=True)
class Slot:
    """The slot of a phase: when it starts, in seconds, and in which ring."""

    phase: int
    ring: int
    start: float
    length: float


def slots(tables: Tables, pattern: int) -> list[Slot]:
    """Returns the slots of a pattern, or of the rings if no pattern is defined: as long as their maximum greens and
    clearances."""
    if pattern in tables.patterns():
        laid = Layout(tables, pattern)
        lengths = {phase: laid.time(phase) / 10 for phase in laid.slots}
        orders = laid.orders
    else:
        orders = value(tables, ("sequence", 1, 1)), value(tables, ("sequence", 1, 2))
        lengths = {
            phase: value(tables, ("phase", phase, 6)) + tables.clearance(phase) / 10
            for order in orders
            for phase in order
        }
    found = []
    for ring, order in enumerate(orders, 1):
        at = 0.0
        for phase in order:
            found.append(Slot(phase, ring, at, lengths[phase]))
            at += lengths[phase]
    return found


def draw_partner(axes, slot: Slot, low: float) -> None:
    """Draws the slot of a partner, hatched."""
    look = {"color": PALE, "edgecolor": FAINT, "hatch": "///", "linewidth": 0.5}
    axes.barh(low + 0.5, slot.length, 1.0, left=slot.start, **look)
    place = (slot.start + slot.length / 2, low + 0.5)
    axes.text(*place, f"{slot.phase}: partner", ha="center", va="center", fontsize=8, color=FAINT)


def draw_slot(axes, tables: Tables, slot: Slot, low: float, is_short: bool) -> None:
    """Draws a slot: green, yellow and red clearance, with a line as long as the minimum service."""
    yellow, red = (value(tables, ("phase", slot.phase, column)) / 10 for column in (8, 9))
    green, least = max(0.0, slot.length - yellow - red), least_service(tables, slot.phase) / 10
    for start, length, colour in ((0, green, LIGHT), (green, yellow, YELLOW), (green + yellow, red, CLEARANCE)):
        axes.barh(low + 0.5, length, 1.0, left=slot.start + start, color=colour)
    edge, width = (WRONG, 2.5) if is_short else (INK, 0.8)
    axes.barh(low + 0.5, slot.length, 1.0, left=slot.start, fill=False, edgecolor=edge, linewidth=width)
    look = {"color": WRONG if least > green else GREEN, "linewidth": 3, "solid_capstyle": "butt", "zorder": 5}
    axes.plot([slot.start, slot.start + least], [low + 0.1] * 2, **look)


def draw_name(axes, known: Intersection, slot: Slot, low: float, is_held: bool) -> None:
    """Writes the phase of a slot, its time and its name."""
    name = "\n".join(textwrap.wrap(known.phase(slot.phase).name, max(6, int(slot.length * 1.1)))[:3])
    words = f"{slot.phase}{' coordinated' if is_held else ''}: {slot.length:g} s" + (f"\n{name}" if name else "")
    axes.text(slot.start + 0.6, low + 0.92, words, ha="left", va="top", fontsize=8, color=INK, clip_on=True)


def draw_slots(axes, laid: Layout, known: Intersection, drawn: list[Slot], short: set[int]) -> None:
    """Draws all slots."""
    held = laid.coordinated if laid.pattern in laid.tables.patterns() else []
    for slot in drawn:
        low = 1.2 if slot.ring == 1 else 0.0
        if slot.phase in known.partners:
            draw_partner(axes, slot, low)
        else:
            draw_slot(axes, laid.tables, slot, low, slot.phase in short)
            draw_name(axes, known, slot, low, slot.phase in held)


def draw_barriers(axes, tables: Tables, drawn: list[Slot]) -> None:
    """Draws a line wherever both rings change to another side."""
    order = drawing.of_tables(tables)
    if order is None:
        return
    side = {phase: number for number, it in enumerate(order.sides) for ring in it for phase in ring}
    for ring in (1, 2):
        own = [it for it in drawn if it.ring == ring]
        low = 1.2 if ring == 1 else 0.0
        for before, after in zip(own, own[1:], strict=False):
            if side.get(before.phase) != side.get(after.phase):
                axes.plot([after.start] * 2, [low - 0.1, low + 1.1], color=INK, linewidth=3)


def draw_zero(axes, laid: Layout) -> None:
    """Marks local zero, and the moment to which the offset refers: local zero, or the end of the green that the
    coordinated phases share."""
    if laid.pattern not in laid.tables.patterns() or not has_pair(laid.tables, laid.pattern):
        return
    if not all(it in laid.slots for it in laid.coordinated):
        return
    offset = f"offset {value(laid.tables, ('pattern', laid.pattern, 3))} s"
    is_end = value(laid.tables, ("unit", 8)) == 2
    marks = {laid.zero: "local zero" if is_end else f"local zero: {offset}"}
    if is_end:
        marks[(laid.zero + laid.window) % laid.cycle] = f"end of green: {offset}"
    for ticks, words in marks.items():
        axes.axvline(ticks / 10, color=ZERO, linewidth=1.5, linestyle=(0, (4, 2)), zorder=6, gid=f"moment-{ticks}")
        look = {"ha": "left" if ticks < laid.cycle / 2 else "right", "va": "bottom", "fontsize": 8, "color": ZERO}
        axes.text(ticks / 10, 2.38, words, **look)


def table_columns(tables: Tables, known: Intersection) -> list[list[str]]:
    """Returns the times of the phases as columns: the names of the rows, then a column for each phase."""
    columns = [["phase", *ROWS, "recall"]]
    for phase in (it for it in tables.enabled() if it not in known.partners):
        recall = fields.show_option("recall", value(tables, ("phase", phase, 21)))
        words = "+".join(SHORT[word] for word in (recall if isinstance(recall, list) else [recall]))
        times = (f"{value(tables, ('phase', phase, column)) / scale:g}" for column, scale in ROWS.values())
        columns.append([str(phase), *times, words])
    return columns


def draw_table(figure, columns: list[list[str]], top: float) -> None:
    """Writes a table below the slots. Each column has its place, since browsers draw several blanks as one."""
    left, first, wide = 0.06, 0.121, 0.0424
    for place, words in enumerate(columns):
        where, side = (first + wide * place, "right") if place else (left, "left")
        look = {"va": "top", "ha": side, "family": "monospace", "fontsize": 8, "color": INK}
        figure.text(where, top, "\n".join(words), **look)


def title(tables: Tables, known: Intersection, called: str, pattern: int) -> str:
    """Returns the title: the intersection, the pattern with its cycle and offset."""
    if pattern not in tables.patterns():
        return f"{called}: free operation"
    cycle, offset = (value(tables, ("pattern", pattern, column)) for column in (2, 3))
    return f"{called}: pattern {pattern}, cycle {cycle} s, offset {offset} s"


def write(tables: Tables, known: Intersection, called: str, pattern: int, path: str) -> None:
    """Writes the picture of an intersection's pattern, as SVG, PNG or PDF by the name of its file."""
    broken = [it for it in rules.broken(tables) if it.rule < 14 or it.rule > 19 or it.row == pattern]
    words = [
        line
        for it in broken
        for said in sentences(tables, known, it)
        for line in textwrap.wrap(f"rule {it.rule}: {said}", LETTERS)
    ]
    laid = Layout(tables, pattern)
    short = {it for it in laid.waited() if laid.room(it) < 0} if any(it.rule == 18 for it in broken) else set()
    plt.rcParams.update(STYLE)
    height = 4.6 + INCH_LINES * len(words)
    figure = plt.figure(figsize=(11, height))
    axes = figure.add_axes((0.06, 1 - 2.9 / height, 0.92, 2.3 / height))
    drawn = slots(tables, pattern)
    draw_slots(axes, laid, known, drawn, short)
    draw_barriers(axes, tables, drawn)
    draw_zero(axes, laid)
    axes.set(
        xlim=(0, max((it.start + it.length for it in drawn), default=1)),
        ylim=(-0.15, 2.35),
        yticks=[0.5, 1.7],
        yticklabels=["ring 2", "ring 1"],
    )
    axes.set_xlabel(
        "seconds; the thick line in a slot is the minimum service of its phase, red where the green is too short for it"
    )
    figure.suptitle(title(tables, known, called, pattern), x=0.01, ha="left", fontsize=11, fontweight="bold", color=INK)
    draw_table(figure, table_columns(tables, known), 1 - 3.4 / height)
    figure.text(0.06, 0.1 / height, "\n".join(words), va="bottom", fontsize=8, color=WRONG)
    save(figure, path)
