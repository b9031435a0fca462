"""The picture of a test: the device above, the proved cabinet below, and a line where the two first differ."""

from collections.abc import Callable
from typing import Any

from matplotlib.lines import Line2D
from matplotlib.patches import Patch

from ..look import pictures
from ..look.rings import COLOURS, FLASHING
from .driving import LEAD
from .expected import START
from .testing import Result

AROUND = (200, 150)
"""How many ticks are shown before and after the first difference."""
UNKNOWN = "#000000"
Letters = Callable[[int], tuple[str, str]]
"""Returns what a side shows at a tick: the letters of vehicles and of pedestrians."""


def window(result: Result) -> tuple[int, int]:
    """Returns the first and the last tick of the picture, counted from the first poll."""
    assert result.driven is not None
    end = max((it.span.last for it in result.driven.samples), default=1)
    parting = result.compared.parting if result.compared else None
    if parting is None:
        return 0, max(1, end)
    first = max(0, parting.last - AROUND[0])
    return first, max(first + 10, min(end, parting.last + AROUND[1]))


def of_device(result: Result) -> Letters:
    """Returns what the device shows, by tick: its last sample."""
    assert result.driven is not None
    samples = result.driven.samples
    ticks = [it.span.first for it in samples]

    def at(tick: int) -> tuple[str, str]:
        import bisect

        shown = samples[max(0, bisect.bisect_right(ticks, tick) - 1)].display
        return shown.vehicles, shown.pedestrians

    return at


def of_cabinet(result: Result) -> Letters:
    """Returns what the proved cabinet shows, by tick."""
    assert result.compared is not None
    expected = result.compared.expected

    def at(tick: int) -> tuple[str, str]:
        frame = expected.at(START + tick)
        return frame.vehicles, frame.pedestrians

    return at


def spans(letters: list[str], first: int) -> dict[str, list[tuple[int, int]]]:
    """Returns the spans of each letter, in ticks since the start of the test."""
    found: dict[str, list[tuple[int, int]]] = {}
    begin = 0
    for at in range(1, len(letters) + 1):
        if at == len(letters) or letters[at] != letters[begin]:
            found.setdefault(letters[begin], []).append((first + begin - LEAD, first + at - LEAD))
            begin = at
    return found


def draw_side(axes: Any, side: Letters, first: int, last: int, phases: list[int], word: str) -> None:
    """Draws the rows of the phases of one side, the lowest phase at the top."""
    shown = [side(it) for it in range(first, last)]
    rows = {}
    for row, phase in enumerate(reversed(phases)):
        rows[row + 0.4] = str(phase)
        vehicles = spans([it[0][phase - 1] for it in shown], first)
        walks = spans([it[1][phase - 1] for it in shown], first)
        pictures.bars(axes, [(first - LEAD, last - LEAD)], row, 0.8, f"{word}-{phase}-red", color=pictures.RED)
        for letter, colour in {**COLOURS, "?": UNKNOWN}.items():
            pictures.bars(axes, vehicles.get(letter, []), row, 0.8, f"{word}-{phase}-{letter}", facecolor=colour)
        pictures.bars(axes, walks.get("W", []), row + 0.08, 0.22, f"{word}-{phase}-walk", facecolor="white")
        pictures.bars(axes, walks.get("F", []), row + 0.08, 0.22, f"{word}-{phase}-flash", **FLASHING)
    axes.set_yticks(list(rows), list(rows.values()))
    axes.tick_params(axis="y", length=0)
    axes.set_ylim(-0.2, len(phases))
    axes.set_ylabel(word)


def draw(result: Result, path: str) -> None:
    """Draws a test that was done, and writes the picture by its suffix."""
    assert result.driven is not None and result.compared is not None
    first, last = window(result)
    both = of_device(result), of_cabinet(result)
    count = len(result.driven.samples[0].display.vehicles)
    letters = [side(tick)[0][:count] for side in both for tick in range(first, last)]
    seen = {at + 1 for shown in letters for at, it in enumerate(shown) if it != "R"}
    phases = sorted(seen) or [1]
    title = f"{result.script.name}: {result.outcome}"
    under = result.words[0] if result.words else result.script.shows
    drawn, axes = pictures.figure(1.6 + 0.5 * len(phases), title, 2, under=under)
    for part, side, word in zip(axes, both, ("device", "proved cabinet")):
        draw_side(part, side, first, last, phases, word)
        if result.compared.parting is not None:
            at = (result.compared.parting.last - LEAD) / 10
            part.axvline(at, color=pictures.INK, linewidth=1.4, linestyle=(0, (4, 2)), gid=f"{word}-difference")
    pictures.time_axis(axes[-1], first - LEAD, last - LEAD)
    axes[-1].set_xlabel("time since the start of the test (minutes:seconds)")
    names = {"G": "green", "Y": "yellow change", "C": "red clearance"}
    keys: list[Any] = [Patch(color=COLOURS[it], label=names[it]) for it in COLOURS]
    keys += [Patch(color=pictures.RED, label="red"), Patch(**FLASHING, label="flashing don't walk")]
    if result.compared.parting is not None:
        keys.append(Line2D([], [], color=pictures.INK, linestyle=(0, (4, 2)), label="first difference"))
    pictures.legend(drawn, keys)
    pictures.save(drawn, path)
