"""The report of a log that was judged: its breaches in words, how many there are of each kind, and what was found in
its rows; as text, or as JSON."""

import json
from collections import Counter
from typing import Any

from .judging import CLAUSES
from .reading import Log
from .sentences import Told

MEANINGS = {
    "apart": "conflicting phases, or a phase that the plan doesn't enable",
    "order": "colours or signals out of order",
    "clearance": "yellow change or red clearance of a wrong length",
    "short green": "greens shorter than their minimum",
    "pedestrian": "walks or pedestrian clearances of a wrong length",
    "on green": "walk or pedestrian clearance without green",
    "not ended": "intervals that are longer than their time and have not ended",
}
MOST_SHOWN = 1000
"""How many breaches a report lists; with --json it has all."""


def counts(told: list[Told]) -> Counter[str]:
    """Returns how many breaches there are of each kind."""
    return Counter(it.clause for it in told)


def text(log: Log, told: list[Told], tolerance: int) -> str:
    """Returns the report as text."""
    lines = [it.line() for it in told[:MOST_SHOWN]]
    if len(told) > MOST_SHOWN:
        lines.append(f".. and {len(told) - MOST_SHOWN:,} more (--json has all)")
    found = counts(told)
    span = f"{log.spool.rows:,} rows of {len(log.devices)} cabinet{'s' * (len(log.devices) > 1)}"
    many = "no breach" if not told else "1 breach" if len(told) == 1 else f"{len(told):,} breaches"
    lines.append(f"{span}, judged to within {tolerance / 10:.1f} s: {many}")
    lines += [f"  {found[it]:6,}  {it}: {MEANINGS[it]}" for it in (*CLAUSES, "not ended") if found[it]]
    return "".join(f"{line}\n" for line in lines)


def as_json(log: Log, told: list[Told], tolerance: int) -> str:
    """Returns the report as JSON."""
    value: dict[str, Any] = {
        "date": log.date(), "rows": log.spool.rows, "tolerance": tolerance,
        "cabinets": {str(number): log.plan.place(number) for number in sorted(log.devices.values())},
        "found": [
            {"cabinet": it.cabinet, "kind": it.kind, "count": it.times, "first": it.first}
            for it in log.findings.listed()
        ],
        "counts": dict(counts(told)),
        "breaches": [it._asdict() for it in told],
    }  # fmt: skip
    return json.dumps(value, indent=1, ensure_ascii=False) + "\n"
