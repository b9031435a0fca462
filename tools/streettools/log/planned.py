"""Whether the patterns that a log reports are those of the plan: cycle, offset and splits (codes 131 to 149)."""

from typing import Any

import numpy as np

from ..shared import event_codes as codes
from ..shared.tables import Tables
from .findings import Findings
from .stretches import where

FIRST, LAST = codes.PATTERN_CHANGE, codes.SPLIT_CHANGE + 16


def due_of(tables: Tables, pattern: int, code: int) -> int | None:
    """Returns the seconds that a code reports of a pattern of the plan; None of a phase that isn't enabled."""
    if code == codes.CYCLE_LENGTH_CHANGE:
        return int(tables.pattern(pattern, 2))
    if code == codes.OFFSET_LENGTH_CHANGE:
        return int(tables.pattern(pattern, 3))
    phase = code - codes.SPLIT_CHANGE
    return int(tables.split(tables.pattern(pattern, 4), phase, 3)) if tables.option(phase, 1) else None


def what_of(code: int) -> str:
    """Returns what a code reports, in words."""
    words = {codes.CYCLE_LENGTH_CHANGE: "cycle", codes.OFFSET_LENGTH_CHANGE: "offset"}
    return words.get(code, f"split of phase {code - codes.SPLIT_CHANGE}")


def compare(rows: Any, tables: Tables, cabinet: int, findings: Findings) -> None:
    """Counts the rows that report something different from the plan. A log without code 131 reports nothing of its
    pattern, and the first rows may report the pattern before."""
    part = rows[(rows["code"] >= FIRST) & (rows["code"] <= LAST)]
    order = np.lexsort((part["code"] != codes.PATTERN_CHANGE, part["tick"]))
    pattern = 0
    for tick, code, value in part[order].tolist():
        if code == codes.PATTERN_CHANGE:
            pattern = value
            if 0 < pattern < codes.FREE_PATTERN and tables.pattern(pattern, 2) == 0:
                findings.add("plan", f"pattern {pattern} at {where(tick)}, which the plan hasn't", cabinet)
        elif 0 < pattern < codes.FREE_PATTERN and tables.pattern(pattern, 2) > 0:
            due = due_of(tables, pattern, code)
            if due is not None and due != value:
                words = f"{what_of(code)} of pattern {pattern} at {where(tick)}: {value} s, the plan has {due} s"
                findings.add("plan", words, cabinet)
