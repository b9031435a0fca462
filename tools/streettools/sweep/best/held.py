"""The comparison at the end of a search: the best plan and the present one over seeds that the search didn't use."""

from dataclasses import dataclass
from typing import Any

from ...cosim.compare_command import table
from ...cosim.totals import Mean, mean_of
from ...cosim.verdicts import SAME, verdict, word
from .goal import MEASURES, Goal
from .tries import Runs, Try
from .wanted import Wanted

GOAL = "goal"
HEADS = ("measure", "present", "best", "more", "differs")


@dataclass(frozen=True)
class Row:
    """A measure of both plans, and how much more it is under the best plan, paired by seed; None without it in a
    run."""

    name: str
    present: Mean | None
    best: Mean | None
    more: Mean | None


@dataclass(frozen=True)
class Comparison:
    """A comparison over some seeds, none where nothing is random."""

    seeds: tuple[int, ...]
    rows: list[Row]

    def word(self, row: Row) -> str:
        """Returns whether a measure differs, in a word."""
        if row.more is None:
            return "-"
        if self.seeds:
            return word(row.more)
        return "the same" if not row.more.value else "less" if row.more.value < 0 else "more"


def held_rows(wanted: Wanted, runs: Runs, its: Try) -> list[list[Any]]:
    """Runs a plan with the seeds that were held back, and returns the results; without seeds those of the search."""
    if not wanted.held_back:
        return its.rows
    first = len(wanted.seeds)
    index, cells, base = its.runs[0]
    asked = [(index + first + it, cells, base) for it in range(len(wanted.held_back))]
    return runs.done([(it, runs.key(it)) for it in asked])


Rows = list[list[Any]]
"""The results of the runs of a plan, seed by seed."""


def compared(wanted: Wanted, goal: Goal, names: list[str], present: Rows, best: Rows) -> Comparison:
    """Returns the comparison of two plans by their results."""
    columns = [(GOAL, [goal.of(it) for it in present], [goal.of(it) for it in best])]
    for place, name in enumerate(names, MEASURES):
        columns.append((name, [number(it[place]) for it in present], [number(it[place]) for it in best]))
    return Comparison(wanted.held_back, [row_of(*it) for it in columns])


def number(value: Any) -> float | None:
    """Returns a measured number, None for anything else."""
    return float(value) if isinstance(value, (int, float)) and not isinstance(value, bool) else None


def row_of(name: str, present: list[float | None], best: list[float | None]) -> Row:
    """Returns the row of a measure."""
    ones, others = ([it for it in values if it is not None] for values in (present, best))
    pairs = [b - a for a, b in zip(present, best) if a is not None and b is not None]
    whole = len(pairs) == len(present)
    return Row(
        name,
        mean_of(ones) if len(ones) == len(present) else None,
        mean_of(others) if len(others) == len(best) else None,
        mean_of(pairs) if whole and pairs else None,
    )


def shown(mean: Mean | None) -> str:
    """Returns a mean with its interval; a dash where there is none."""
    return "-" if mean is None else str(mean)


def sentence(found: Comparison) -> str:
    """Returns what the comparison shows of the goal, in a sentence."""
    more = found.rows[0].more
    if more is None:
        return "the goal has no value in a run: the plans can't be compared"
    if not found.seeds:
        said = found.word(found.rows[0])
        return f"the best plan: the goal is {said}" + ("" if said == "the same" else f" by {abs(more.value):.3f}")
    half = more.half or 0.0
    over = f"at 95 % over {len(found.seeds)} seeds"
    if verdict(more) == SAME:
        span = f"{more.value - half:+.2f} to {more.value + half:+.2f}"
        return f"the best plan: no real difference in the goal ({span} {over})"
    low, high = sorted((abs(more.value) - half, abs(more.value) + half))
    return f"the best plan: the goal is {abs(more.value):.2f} {verdict(more)} ({low:.2f} to {high:.2f} {over})"


def text_of(found: Comparison) -> str:
    """Returns the comparison as text."""
    about = "nothing in this study is random: each plan has one run"
    if found.seeds:
        first, last = found.seeds[0], found.seeds[-1]
        about = f"seeds {first} to {last}, which the search didn't use; means with intervals of 95 %"
    cells: list[tuple[str, ...]] = [HEADS]
    for it in found.rows:
        cells.append((it.name, shown(it.present), shown(it.best), shown(it.more), found.word(it)))
    return "\n".join([f"{about}; more: than under the present plan", "", *table(cells), "", sentence(found)]) + "\n"


def document_of(found: Comparison) -> dict[str, Any]:
    """Returns the comparison as JSON has it."""

    def pair(mean: Mean | None) -> list[float | None] | None:
        return None if mean is None else list(mean)

    rows = [
        {"measure": it.name, "present": pair(it.present), "best": pair(it.best), "more": pair(it.more),
         "differs": found.word(it)}
        for it in found.rows
    ]  # fmt: skip
    return {"seeds": list(found.seeds), "rows": rows, "words": sentence(found)}
