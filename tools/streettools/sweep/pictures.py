"""The pictures of a sweep's table: lines, a map, a frontier."""

from typing import Any

from ..shared.fault import Fault
from ..shared.pictures import FAINT, INK, STYLE, plt, save
from .results import Results, in_order

COLOURS = ("#1c7ed6", "#e8590c", "#2f9e53", "#862e9c", "#c2255c", "#5f3dc4", "#846358", "#495057")
MOST_LINES = len(COLOURS)


def figure(title: str) -> tuple[Any, Any]:
    """Returns a figure with one pair of axes."""
    plt.rcParams.update(STYLE)
    drawn, axes = plt.subplots(figsize=(7.5, 4.6), layout="constrained")
    axes.set_title(title, loc="left", fontsize=10, fontweight="bold", color=INK)
    return drawn, axes


def others(results: Results, shown: list[str]) -> str:
    """Returns what a mean is taken over, in words."""
    rest = [
        it
        for it in (*results.parameters, "seed")
        if it in results.frame.columns and it not in shown and results.frame[it].nunique() > 1
    ]
    return f" (mean over {', '.join(rest)})" if rest else ""


def lines(results: Results, x: str, of: str, by: str | None, path: str) -> None:
    """Draws a measure over a parameter, with the least and the greatest of the runs behind each mean as an area."""
    found = results.grouped([x, *([by] if by else [])], of)
    names = in_order(key[1] for key in found) if by else [None]
    if len(names) > MOST_LINES:
        raise Fault(f"{by} has {len(names)} values, and {MOST_LINES} lines can be told apart")
    drawn, axes = figure(f"{of} over {x}{others(results, [x, by or x])}")
    places = in_order(key[0] for key in found)
    for colour, name in zip(COLOURS, names):
        there = [it for it in places if ((it, name) if by else (it,)) in found]
        spots = [found[(it, name) if by else (it,)] for it in there]
        label = f"{by} {name}" if by else of
        axes.plot(
            there, [it.mean for it in spots], color=colour, marker="o", markersize=3.5, label=label, gid=f"line-{label}"
        )
        axes.fill_between(
            there, [it.least for it in spots], [it.greatest for it in spots], color=colour, alpha=0.15, linewidth=0
        )
    axes.set_xlabel(x)
    axes.set_ylabel(results.unit(of))
    axes.grid(axis="y", color="#e9ecef", linewidth=0.8, zorder=0)
    if by:
        axes.legend(frameon=False)
    save(drawn, path)


def heat(results: Results, x: str, y: str, of: str, path: str) -> None:
    """Draws a measure over two parameters as a map of colours; a place without a run that was done stays white."""
    found = results.grouped([x, y], of)
    columns, rows = in_order(key[0] for key in found), in_order(key[1] for key in found)
    values = [
        [found[column, row].mean if (column, row) in found else float("nan") for column in columns] for row in rows
    ]
    drawn, axes = figure(f"{of} over {x} and {y}{others(results, [x, y])}")
    shown = axes.imshow(values, origin="lower", aspect="auto", cmap="viridis", interpolation="nearest")
    drawn.colorbar(shown, ax=axes, label=results.unit(of))
    for axis, name, ticks in ((axes.xaxis, x, columns), (axes.yaxis, y, rows)):
        step = max(1, len(ticks) // 12)
        axis.set_ticks(range(0, len(ticks), step), [str(it) for it in ticks[::step]])
        axis.set_label_text(name)
    if len(columns) * len(rows) <= 150:
        middle = (shown.norm.vmin + shown.norm.vmax) / 2
        for row, line in enumerate(values):
            for column, value in enumerate(line):
                if value == value:
                    axes.text(
                        column,
                        row,
                        f"{value:.3g}",
                        ha="center",
                        va="center",
                        fontsize=7,
                        color="white" if value < middle else INK,
                    )
    save(drawn, path)


def frontier(results: Results, wanted: list[tuple[str, int]], path: str) -> list[tuple[Any, ...]]:
    """Draws two measures of each variant against each other, and joins those that no other is better than in both.

    `wanted` has each measure with 1 where the least is best and -1 where the greatest is. Returns the values of the
    parameters on the frontier."""
    (one, sign), (other, turn) = wanted
    ones, twos = (results.grouped(results.parameters, it) for it in (one, other))
    spots = [(key, ones[key].mean, twos[key].mean) for key in ones if key in twos]
    best, least = [], float("inf")
    for spot in sorted(spots, key=lambda it: (sign * it[1], turn * it[2])):
        if turn * spot[2] < least:
            best.append(spot)
            least = turn * spot[2]
    drawn, axes = figure(f"{one} and {other}, one point a variant{others(results, results.parameters)}")
    axes.scatter([it[1] for it in spots], [it[2] for it in spots], s=14, color=FAINT, zorder=3, gid="variants")
    axes.plot(
        [it[1] for it in best], [it[2] for it in best], color=COLOURS[1], marker="o", markersize=5, gid="frontier"
    )
    for key, x, y in best[:12]:
        axes.annotate(
            ", ".join(str(it) for it in key), (x, y), xytext=(5, 5), textcoords="offset points", fontsize=7, color=INK
        )
    axes.set_xlabel(f"{results.unit(one)}, {'least' if sign > 0 else 'greatest'} is best")
    axes.set_ylabel(f"{results.unit(other)}, {'least' if turn > 0 else 'greatest'} is best")
    axes.grid(color="#e9ecef", linewidth=0.8, zorder=0)
    save(drawn, path)
    return [key for key, _, _ in best]
