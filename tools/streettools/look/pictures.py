"""What all pictures share: colours, an axis of time, room for rows, a legend."""

import math
import textwrap
import warnings
from collections.abc import Sequence
from typing import Any

from matplotlib.ticker import FuncFormatter, MultipleLocator

# the other pictures take these from here
from streettools.shared.clock import clock_text, day_text
from streettools.shared.pictures import FAINT, INK, STYLE, plt, save  # noqa: F401

GREEN, YELLOW, CLEARANCE, RED = "#2f9e53", "#f4c20d", "#c9302c", "#e9ecef"
WALK, FLASHING = "#ffffff", "#f58220"
MODES = {"S": "#ced4da", "F": "#a5d8ff", "K": "#ffe066", "C": "#b2f2bb", "E": "#ffc9c9", "X": "#ff8787", "P": "#d0bfff"}
STEPS = (0.1, 0.2, 0.5, 1, 2, 5, 10, 15, 20, 30, 60, 120, 300, 600, 900, 1800, 3600, 7200, 10800, 21600)
"""How many seconds may lie between two marks of a time axis."""


def day_axis(axes: Any, start: float, end: float, step: float, began: float) -> None:
    """Marks an axis with the time of day, whose tick 0 is `began` seconds from midnight."""
    least = math.ceil((start / 10 + began) / step - 1e-9)
    most = math.floor((end / 10 + began) / step + 1e-9)
    marks = [it * step for it in range(least, most + 1)]
    axes.set_xticks([it - began for it in marks], [day_text(it) for it in marks])
    axes.set_xlabel("time of day (hours:minutes:seconds)")


def time_axis(axes: Any, start: float, end: float, began: float | None = None) -> None:
    """Gives an axis the time from one tick to another, in seconds, written as minutes and seconds since the run began,
    or as the time of day if `began` says how many seconds from midnight that was."""
    axes.set_xlim(start / 10, end / 10)
    fitting = next((it for it in STEPS if (end - start) / 10 <= 12 * it), None)
    step = fitting or STEPS[-1] * -(-(end - start) // (120 * STEPS[-1]))
    if began is not None:
        day_axis(axes, start, end, step, began)
        return
    axes.xaxis.set_major_locator(MultipleLocator(step))
    axes.xaxis.set_major_formatter(FuncFormatter(clock_text))
    form = "minutes:seconds" if end < 36_000 else "hours:minutes:seconds"
    axes.set_xlabel(f"time since the start of the run ({form})")


def bars(axes: Any, spans: Sequence[tuple[float, float]], low: float, height: float, name: str, **look: Any) -> None:
    """Draws spans of ticks as bars, and names their group in an SVG."""
    if spans:
        drawn = [(start / 10, (end - start) / 10) for start, end in spans]
        axes.broken_barh(drawn, (low, height), gid=name, **look)


def width_of(text: str, size: float = 9) -> float:
    """Returns about how many points a text of this size is wide."""
    return 0.58 * size * len(text)


def room(axes, start, end):
    """Returns how many points wide a span of ticks is drawn."""
    low, high = axes.get_xlim()
    inches = axes.get_position().width * axes.figure.get_figwidth()
    return 72 * inches * (end - start) / 10 / (high - low)


def escaped(text: str) -> str:
    """Returns a text in which a dollar sign begins no formula."""
    return text.replace("$", r"\$")


def figure(
    height: float, title: str, rows: int = 1, ratios: Any = None, under: str = "", labels: Sequence[str] = ()
) -> tuple[Any, list[Any]]:
    """Returns a figure 11 inches wide with `rows` axes one above the other. Room is left around them for the title
    above, for the text under the title, for the text below the axes, and for the labels of the rows."""
    plt.rcParams.update(STYLE)
    warnings.filterwarnings("ignore", "Glyph .* missing from current font")
    wrapped = textwrap.wrap(under, 155)
    above, height = 0.34 + 0.16 * len(wrapped), height + 0.16 * len(wrapped)
    drawn, axes = plt.subplots(
        rows, 1, figsize=(11, height), sharex=True, squeeze=False, gridspec_kw={"height_ratios": ratios}
    )
    drawn.suptitle(escaped(title), x=0.01, ha="left", fontsize=11, fontweight="bold", color=INK)
    if wrapped:
        text = escaped("\n".join(wrapped))
        drawn.text(0.01, 1 - 0.3 / height, text, ha="left", va="top", fontsize=8, color=INK, linespacing=1.2)
    widest = max((width_of(line) for text in labels for line in text.split("\n")), default=0)
    left = min(0.3, max(0.105, (widest + 14) / (72 * 11)))
    drawn.subplots_adjust(left=left, right=0.975, top=1 - above / height, bottom=0.8 / height)
    return drawn, [row[0] for row in axes]


def legend(drawn: Any, keys: list[Any]) -> None:
    """Explains colours and lines in one row at the foot."""
    drawn.legend(
        handles=keys, ncol=len(keys), loc="lower center", frameon=False, fontsize=8, handlelength=1.4, borderaxespad=0.2
    )
