"""The measures that are built in: each with its unit, its definition, and how it is computed from the counts."""

import enum
from collections.abc import Callable, Iterable
from dataclasses import dataclass
from typing import Any

from .counts import Spread

Value = int | float | None


class Scope(enum.Enum):
    """Of what a measure is taken."""

    PHASE = "phase"
    CABINET = "cabinet"
    STREET = "street"
    TRAFFIC = "phase with vehicles of the table volumes"


class Part(enum.Enum):
    """What of a run is followed only for some measures: how greens end, vehicles that wait, people that wait and walk,
    cycles of a pattern. All else is always followed."""

    ENDINGS = "endings"
    WAITS = "waits"
    WALKS = "walks"
    CYCLES = "cycles"


@dataclass(frozen=True)
class Measure:
    """A measure: `value` takes the counts of all phases, cabinets or streets that are asked for; `part` says what is
    followed for it."""

    name: str
    scope: Scope
    unit: str
    what: str
    value: Callable[[list[Any]], Value]
    part: Part | None = None


def summed(numbers: Iterable[float]) -> float:
    """Returns the sum of numbers; that of whole numbers is whole."""
    return sum(numbers)


def greatest(numbers: Iterable[float]) -> float:
    """Returns the maximum of numbers."""
    return max(numbers)


def count(name: str) -> Callable[[list[Any]], Value]:
    """Returns the sum of a count."""
    return lambda parts: summed(getattr(it, name) for it in parts)


def ended(word: str) -> Callable[[list[Any]], Value]:
    """Returns how many greens ended in a way."""
    return lambda parts: summed(it.endings[word] for it in parts)


def share(part: str, whole: str) -> Callable[[list[Any]], Value]:
    """Returns one count as a share of another."""

    def value(parts: list[Any]) -> Value:
        of = sum(getattr(it, whole) for it in parts)
        return round(sum(getattr(it, part) for it in parts) / of, 4) if of else None

    return value


def spread(name: str, which: str, scale: int = 10) -> Callable[[list[Any]], Value]:
    """Returns the minimum, the mean or the maximum of lengths; the scale converts ticks to seconds."""

    def value(parts: list[Any]) -> Value:
        found = Spread.of(getattr(it, name) for it in parts)
        if not found.count:
            return None
        if which == "mean":
            return round(found.total / found.count / scale, 3)
        length: int = getattr(found, which)
        return length if scale == 1 else length / scale

    return value


def planned(way: int) -> Callable[[list[Any]], Value]:
    """Returns the width of the plan's widest band."""
    return lambda parts: None if parts[0].planned[way] is None else parts[0].planned[way] / 10


def seen(way: int) -> Callable[[list[Any]], Value]:
    """Returns the mean width of the bands in the trace."""

    def value(parts: list[Any]) -> Value:
        whole: Spread = parts[0].seen[way]
        if whole.count:
            return round(whole.total / whole.count / 10, 3)
        return None if parts[0].met[way] else 0

    return value


def through(way: int) -> Callable[[list[Any]], Value]:
    """Returns the share of the time that lies in bands of the trace."""
    return lambda parts: round(parts[0].met[way] / parts[0].starts, 4) if parts[0].starts else None


ENDINGS = {
    "gap": "no vehicle came within the passage time",
    "maximum": "the maximum green was over, and another phase was called",
    "force-off": "the force point of the phase was reached in a pattern",
    "yield": "a coordinated phase gave way to a call",
    "split filled": "floating force-offs: the phase had filled its split",
    "priority": "in a pattern, for a priority request",
    "seek": "on the way to the coordinated phases",
    "preempt": "for a preempt",
    "ending": "on the way to flash",
    "not told": "the tables in force aren't known from the trace",
}


def spreads(
    name: str, of: str, what: str, scope: Scope, part: Part | None = None, unit: str = "s", scale: int = 10
) -> list[Measure]:
    """Returns the minimum, the mean and the maximum of lengths as measures."""
    return [
        Measure(f"{name}_{it}", scope, unit, f"{word} {what}", spread(of, it, scale), part)
        for it, word in (("least", "minimum"), ("mean", "mean"), ("greatest", "maximum"))
    ]


PHASE = [
    Measure("services", Scope.PHASE, "greens", "greens that began", count("services")),
    *spreads("green", "green", "green time, of greens that began and ended", Scope.PHASE),
    Measure(
        "green_share",
        Scope.PHASE,
        "share",
        "share of the time in which the phase is green",
        share("green_ticks", "ticks"),
    ),
    *(
        Measure(
            f"ended_{it.replace(' ', '_').replace('-', '_')}",
            Scope.PHASE,
            "greens",
            f"greens that ended for this reason: {what}",
            ended(it),
            Part.ENDINGS,
        )
        for it, what in ENDINGS.items()
    ),
    *spreads("wait", "wait", "time from a vehicle's call to the green that serves it", Scope.PHASE, Part.WAITS),
    Measure(
        "waiting",
        Scope.PHASE,
        "phases",
        "phases with a call that was not served by the end of the run",
        count("waiting"),
        Part.WAITS,
    ),
    Measure("walks", Scope.PHASE, "walks", "walks that began", count("walks"), Part.WALKS),
    *spreads(
        "walk_wait",
        "walk_wait",
        "time from the first press of a button to the walk that serves it",
        Scope.PHASE,
        Part.WALKS,
    ),
    Measure(
        "walk_waiting",
        Scope.PHASE,
        "phases",
        "phases with a press that was not served by the end of the run",
        count("walk_waiting"),
        Part.WALKS,
    ),
]
CABINET = [
    Measure("local_zeros", Scope.CABINET, "zeros", "local zeros", count("zeros"), Part.CYCLES),
    Measure(
        "on_offset_share",
        Scope.CABINET,
        "share",
        "share of local zeros that are on the offset",
        share("met", "zeros"),
        Part.CYCLES,
    ),
    Measure("pickups", Scope.CABINET, "pickups", "how often a pattern was picked up", count("pickups"), Part.CYCLES),
    *spreads(
        "cycles_to_offset",
        "cycles",
        "number of cycles from a pickup to the first local zero on the offset",
        Scope.CABINET,
        Part.CYCLES,
        "cycles",
        1,
    ),
    *spreads(
        "seconds_to_offset",
        "seconds",
        "time from a pickup to the first local zero on the offset",
        Scope.CABINET,
        Part.CYCLES,
    ),
    Measure(
        "offset_missed",
        Scope.CABINET,
        "pickups",
        "pickups after which no local zero was on the offset",
        lambda parts: summed(it.pickups - it.cycles.count for it in parts),
        Part.CYCLES,
    ),
    Measure(
        "coordinated_share",
        Scope.CABINET,
        "share",
        "share of the time in coordinated mode (mode C)",
        share("coordinated", "ticks"),
    ),
    Measure("downloads_accepted", Scope.CABINET, "downloads", "downloads that came into force", count("accepted")),
    Measure(
        "downloads_refused",
        Scope.CABINET,
        "downloads",
        "downloads that the cabinet refused for a rule",
        count("refused"),
    ),
    Measure(
        "fails",
        Scope.CABINET,
        "notes",
        "how often the master noted that a cabinet fails: every attempt of a command failed",
        count("fails"),
    ),
    *spreads(
        "failed_rounds",
        "failed_rounds",
        "number of rounds from that note to the note that the cabinet is good again",
        Scope.CABINET,
        None,
        "rounds",
        1,
    ),
    Measure(
        "still_failed",
        Scope.CABINET,
        "cabinets",
        "cabinets that were not good again by the end of the run",
        count("still_failed"),
    ),
    Measure("notes", Scope.CABINET, "notes", "notes of the master, of all kinds", count("notes")),
]
STREET = [
    measure
    for way, name in enumerate(("outbound", "inbound"))
    for measure in (
        Measure(
            f"band_{name}",
            Scope.STREET,
            "s",
            f"width of the plan's widest {name} band, by `arterial band`; 0 if there is none",
            planned(way),
        ),
        Measure(
            f"band_seen_{name}",
            Scope.STREET,
            "s",
            f"mean width of the bands {name} in the trace: spans of starts that meet green in each cabinet; bands"
            " cut off by the beginning or the end of the run are excluded",
            seen(way),
        ),
        Measure(
            f"through_{name}",
            Scope.STREET,
            "share",
            f"share of the starts {name} that meet green in each cabinet",
            through(way),
        ),
    )
]
def rate(part: str, whole: str, scale: float = 1.0) -> Callable[[list[Any]], Value]:
    """Returns a sum as a part of another, to three places."""

    def value(parts: list[Any]) -> Value:
        of = sum(getattr(it, whole) for it in parts)
        return round(sum(getattr(it, part) for it in parts) / of / scale, 3) if of else None

    return value


TRAFFIC = [
    Measure("vehicles", Scope.TRAFFIC, "vehicles", "vehicles that passed the stop line", count("vehicles")),
    Measure("delay_mean", Scope.TRAFFIC, "s", "mean delay of a vehicle at the stop line", rate("delay", "vehicles")),
    Measure(
        "delay_hours",
        Scope.TRAFFIC,
        "h",
        "delay of all vehicles at the stop line together",
        lambda parts: round(summed(it.delay for it in parts) / 3600, 3),
    ),
    Measure("stops_mean", Scope.TRAFFIC, "stops", "stops of a vehicle at the stop line", rate("stops", "vehicles")),
    Measure(
        "on_green_share",
        Scope.TRAFFIC,
        "share",
        "share of the vehicles that reached the stop line on green",
        share("on_green", "vehicles"),
    ),
    Measure(
        "queue_mean",
        Scope.TRAFFIC,
        "vehicles",
        "mean number of vehicles in the queue; of several queues together",
        lambda parts: round(sum(it.queued for it in parts) / parts[0].queue_time, 3) if parts[0].queue_time else None,
    ),
    Measure(
        "queue_greatest",
        Scope.TRAFFIC,
        "vehicles",
        "maximum number of vehicles in a queue",
        lambda parts: greatest(it.queue_greatest for it in parts),
    ),
    Measure("queue_left", Scope.TRAFFIC, "vehicles", "vehicles in the queue at the end of the run", count("left")),
    Measure(
        "split_failures",
        Scope.TRAFFIC,
        "greens",
        "greens after which a vehicle still waits that waited when they began",
        count("failures"),
    ),
]
"""Measures of vehicles that wait in queues (cosim.movements.Count)."""
ALL = {it.name: it for it in (*PHASE, *CABINET, *STREET, *TRAFFIC)}
