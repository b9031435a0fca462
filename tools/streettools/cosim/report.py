"""The report of a street with traffic: delay, stops, queue and travel time by movement, cabinet and route.

`collect` gives the values as JSON has them, `text` gives them as tables for a terminal. Times are seconds.
"""

import json
from collections.abc import Iterable, Mapping
from dataclasses import dataclass, field
from typing import Any

from . import undisturbed
from .movements import Count, Greens, RouteCount, counts, is_of_persons, kinds, routes
from .queues.signals import Signals
from .records import Kind, Study

SERVICE = ((10, "A"), (20, "B"), (35, "C"), (55, "D"), (80, "E"))
"""Level of service of a signalized intersection by its mean control delay (Highway Capacity Manual)."""
Value = dict[str, Any]


@dataclass(frozen=True)
class More:
    """What a study doesn't have: the names of cabinets, and in which share of the time the coordination of each was
    undisturbed (nothing where that isn't known)."""

    names: Mapping[int, str] = field(default_factory=dict)
    undisturbed: Mapping[int, float] = field(default_factory=dict)


def greens_in(study: Study) -> Greens:
    """Returns when each phase was green, by the study's trace."""
    signals = Signals(study.cabinets)
    with open(study.trace, "rb") as lines:
        signals.shown([line for line in lines if line.startswith(b"F ")])
    signals.close(study.seconds)
    return signals.greens


def level(delay: float) -> str:
    """Returns the level of service of a mean delay."""
    return next((letter for most, letter in SERVICE if delay <= most), "F")


def share(part: float, whole: float, places: int = 3) -> float | None:
    """Returns a quotient, None if there is nothing to divide by."""
    return round(part / whole, places) if whole else None


def percentile(values: list[float], part: float) -> float | None:
    """Returns the value that so large a part of the values doesn't exceed, by nearest rank."""
    if not values:
        return None
    return round(sorted(values)[max(0, -int(-part * len(values) // 1) - 1)], 1)


def value_of(count: Count) -> Value:
    """Returns what was counted of a movement, or of several."""
    delay = share(count.delay, count.vehicles, 1)
    green = share(count.green_time, count.time)
    on_green = share(count.on_green, count.vehicles)
    return {
        "vehicles": count.vehicles,
        "delay": delay,
        "delay_95": percentile(count.delays, 0.95),
        "level": None if delay is None else level(delay),
        "stops": share(count.stops, count.vehicles, 2),
        "on_green": on_green,
        "green": green,
        "v_c": None if count.capacity is None else share(count.arrivals, count.capacity, 2),
        "full": None if count.full_time is None else share(count.full_time, count.time),
        "platoon_ratio": round(on_green / green, 2) if on_green is not None and green else None,
        "queue_mean": share(count.queued, count.queue_time, 2),
        "queue_greatest": count.queue_greatest,
        "left": count.left,
        "greens": count.greens,
        "split_failures": count.failures,
    }


def cabinet_value(number: int, count: Count, more: More) -> Value:
    """Returns what was counted of a cabinet."""
    value = value_of(count)
    named = {"name": more.names[number]} if number in more.names else {}
    quiet = {UNDISTURBED: rounded(more.undisturbed.get(number))}
    return {"cabinet": number} | named | {name: value[name] for name in OF_CABINET} | quiet


def rounded(value: float | None) -> float | None:
    """Returns a share with three places."""
    return None if value is None else round(value, 3)


def route_value(count: RouteCount) -> Value:
    """Returns what was counted of a route, or of all of a kind."""
    return {
        "trips": count.trips,
        "arrived": count.arrived,
        "travel": share(count.travel, count.arrived, 1),
        "delay": share(count.delay, count.arrived, 1),
        "stops": share(count.stops, count.arrived, 2),
    }


def collect(study: Study, greens: Greens | None = None, more: More | None = None) -> Value:
    """Returns the report; if no greens are given, they come from the trace."""
    more = more or More()
    found = counts(study, greens_in(study) if greens is None else greens)
    cabinets = {number: Count() for number in range(1, study.cabinets + 1)}
    moved, walked = [], []
    for it in study.movements:
        count = found[it.cabinet, it.name]
        named: Value = {"cabinet": it.cabinet, "movement": it.name, "phase": it.phase}
        if is_of_persons(it):
            walked.append({**named, "persons": count.vehicles, "delay": share(count.delay, count.vehicles, 1)})
        else:
            cabinets[it.cabinet].add(count)
            moved.append(named | value_of(count))
    return {
        "title": study.title,
        "seconds": study.seconds,
        "warm": study.warm,
        "kinds": [{"kind": str(kind)} | route_value(it) for kind, it in kinds(study).items()],
        UNDISTURBED: rounded(undisturbed.mean(more.undisturbed)),
        "cabinets": [cabinet_value(number, it, more) for number, it in cabinets.items()],
        "movements": moved,
        "crossings": walked,
        "lanes": [it._asdict() for it in study.lanes],
        "routes": [
            {"kind": str(kind), "route": name} | route_value(it)
            for (kind, name), it in sorted(routes(study).items(), key=lambda it: (-it[1].trips, it[0]))
            if kind is not Kind.PERSON
        ],
    }


COLUMNS = {
    "vehicles": "vehicles",
    "delay": "delay",
    "delay_95": "95 %",
    "level": "level",
    "stops": "stops",
    "on_green": "on green",
    "green": "green",
    "platoon_ratio": "ratio",
    "v_c": "v/c",
    "full": "full",
    "queue_mean": "queue",
    "queue_greatest": "greatest",
    "left": "left",
    "greens": "greens",
    "split_failures": "failures",
}
"""The columns of a table of movements, with their heads."""
OF_CABINET = ("vehicles", "delay", "delay_95", "level", "stops", "on_green", "left", "split_failures")
"""The columns that a whole cabinet has: its movements have no green and no queue in common."""
UNDISTURBED = "undisturbed"
"""The share of the time in which coordination was undisturbed."""
ROUTES = {"trips": "trips", "arrived": "arrived", "travel": "travel", "delay": "delay", "stops": "stops"}
PLACED = ("cabinets", "movements", "crossings", "lanes")
"""The tables whose rows are at a cabinet."""
LANES = {name: name for name in ("cabinet", "lane", "greens", "vehicles", "saturation", "lost")}
SHOWN = 12
"""How many routes are shown at most, those with the most trips first."""


def cell(value: Any) -> str:
    """Returns a value as a cell of a table."""
    return "-" if value is None else str(value)


def table(rows: Iterable[Value], heads: dict[str, str]) -> str:
    """Returns rows as a table; texts are aligned left, numbers right."""
    given = list(rows)
    cells = [list(heads.values())] + [[cell(row[name]) for name in heads] for row in given]
    widths = [max(len(row[place]) for row in cells) for place in range(len(heads))]
    left = [all(isinstance(row[name], str) or row[name] is None for row in given) for name in heads]
    lines = []
    for row in cells:
        placed = (it.ljust(width) if is_left else it.rjust(width) for it, width, is_left in zip(row, widths, left))
        lines.append("  ".join(placed).rstrip())
    return "\n".join(lines) + "\n"


def placed(value: Value) -> Value:
    """Returns the report with the names of cabinets next to their numbers."""
    names = {it["cabinet"]: f"{it['cabinet']} {it['name']}" for it in value["cabinets"] if "name" in it}
    if not names:
        return value
    for key in PLACED:
        value = value | {key: [it | {"cabinet": names.get(it["cabinet"], str(it["cabinet"]))} for it in value[key]]}
    return value


def cabinet_heads(value: Value) -> dict[str, str]:
    """Returns the columns of the table of cabinets; how long coordination was undisturbed only where that is known."""
    quiet = {} if value[UNDISTURBED] is None else {UNDISTURBED: UNDISTURBED}
    return {"cabinet": "cabinet"} | {name: COLUMNS[name] for name in OF_CABINET} | quiet


def text(value: Value) -> str:
    """Returns the report as tables for a terminal."""
    value = placed(value)
    head = f"{value['title']}: " if value["title"] else ""
    counted = f", counted from {value['warm']:g} s on" if value["warm"] else ""
    parts = [f"{head}{value['seconds']:g} s{counted}; times in seconds\n"]
    parts.append(table(value["kinds"], {"kind": "who"} | ROUTES))
    parts.append(table(value["cabinets"], cabinet_heads(value)))
    rows = value["movements"]
    shown = [it for it in COLUMNS if it not in ("v_c", "full") or any(row[it] is not None for row in rows)]
    heads = {"cabinet": "cabinet", "movement": "movement", "phase": "phase"} | {name: COLUMNS[name] for name in shown}
    parts.append(table(rows, heads))
    if value["crossings"]:
        heads = {"cabinet": "cabinet", "movement": "crossing", "persons": "persons", "delay": "delay"}
        parts.append(table(value["crossings"], heads))
    if value["lanes"]:
        parts.append(table(value["lanes"], LANES))
    rows = value["routes"]
    if rows:
        parts.append(table(rows[:SHOWN], {"route": "route", "kind": "who"} | ROUTES))
    if len(rows) > SHOWN:
        parts.append(f"{len(rows) - SHOWN} more routes are in the report as JSON\n")
    return "\n".join(parts)


def json_text(value: Value) -> str:
    """Returns the report as JSON."""
    return json.dumps(value, indent=1) + "\n"
