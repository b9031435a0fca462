"""What volumes must keep to fit a scenario: each movement has an existing phase, each phase has traffic."""

import difflib
from typing import Any

from ...shared.clock import hours_text
from ...shared.fault import Fault
from ...shared.tables import Tables
from .volumes import Crossing, Flow, Volumes
from .yielding import gives_way, yields_to


def tables_of(scenario: dict[str, Any]) -> dict[int, Tables]:
    """Returns the tables with which each cabinet of a scenario opens."""
    try:
        rows = enumerate(scenario["cabinets"], 1)
        return {number: Tables(it.get("base", "std8"), it.get("cells", ())) for number, it in rows}
    except (TypeError, ValueError, AttributeError, KeyError):
        raise Fault("not a valid scenario (./arterial run shows why)") from None


def check(volumes: Volumes, scenario: dict[str, Any], seconds: float) -> None:
    """Refuses volumes that don't fit a scenario, or that don't cover a run of `seconds`."""
    tables = tables_of(scenario)
    cabinets_are_there(volumes, tables)
    phases_are_served(volumes, tables)
    names_are_known(volumes)
    profiles_cover(volumes, scenario, seconds)
    capacities_hold(volumes)
    turns_are_known(volumes, tables)


def turns_are_known(volumes: Volumes, tables: dict[int, Tables]) -> None:
    """Refuses turns that give way in phases that aren't there, or to movements that aren't."""
    names = {(it.cabinet, it.name) for it in volumes.flows}
    for it in volumes.flows:
        enabled = tables[it.cabinet].enabled()
        if strange := next((phase for phase in it.permitted if phase not in enabled), None):
            raise Fault(f"volumes: {told(it)}: permitted phase {strange} is not enabled in cabinet {it.cabinet}")
        if unknown := next((name for name in it.yielding.to if (it.cabinet, name) not in names), None):
            raise Fault(f"volumes: {told(it)} yields to {unknown}, a movement that doesn't exist")
        if gives_way(it) and not yields_to(it):
            raise Fault(f"volumes: {told(it)} gives way: yields_to has to name the movements to which it does")
        if it.yielding.on_red and it.permitted:
            raise Fault(f"volumes: {told(it)} has permitted phases and on_red: a movement has one of both")


def cabinets_are_there(volumes: Volumes, tables: dict[int, Tables]) -> None:
    """Refuses cabinets and phases that aren't there."""
    for it in all_of(volumes):
        what = told(it)
        if it.cabinet not in tables:
            raise Fault(f"volumes: {what}: the scenario has no cabinet {it.cabinet}")
        if it.phase not in tables[it.cabinet].enabled():
            raise Fault(f"volumes: {what}: phase {it.phase} is not enabled in cabinet {it.cabinet}")
        if isinstance(it, Crossing) and not tables[it.cabinet].phase(it.phase, 2):
            raise Fault(f"volumes: {what}: phase {it.phase} of cabinet {it.cabinet} has no walk")
    for cabinet, phase in sorted(volumes.idle, key=str):
        if cabinet not in tables or phase not in tables[cabinet].enabled():
            raise Fault(f"volumes: idle of cabinet {cabinet}: phase {phase} is not enabled there")


def all_of(volumes: Volumes) -> tuple[Flow | Crossing, ...]:
    """Returns all movements and crossings."""
    return (*volumes.flows, *volumes.crossings)


def told(it: Flow | Crossing) -> str:
    """Returns how a message names a movement or a crossing."""
    return f"{'crossing' if isinstance(it, Crossing) else it.name} of cabinet {it.cabinet}"


def phases_are_served(volumes: Volumes, tables: dict[int, Tables]) -> None:
    """Refuses a phase without traffic."""
    served = {(it.cabinet, it.phase) for it in all_of(volumes)} | volumes.idle
    for cabinet, table in tables.items():
        for phase in table.enabled():
            if (cabinet, phase) not in served:
                raise Fault(
                    f"volumes: phase {phase} of cabinet {cabinet} has no movement and no crossing "
                    "(idle lists phases without traffic)"
                )


def names_are_known(volumes: Volumes) -> None:
    """Refuses duplicate names, approaches and profiles that don't exist, and ambiguous approaches."""
    names: set[tuple[int, str]] = set()
    approaches: dict[tuple[int, str], list[Flow]] = {}
    for it in volumes.flows:
        if (it.cabinet, it.name) in names:
            raise Fault(f"volumes: cabinet {it.cabinet} has two movements {it.name}")
        names.add((it.cabinet, it.name))
        approaches.setdefault((it.cabinet, it.approach), []).append(it)
    for it in volumes.flows:
        onward = it.onward
        if onward is None:
            continue
        if not onward.travel:
            words = "travel is missing: the seconds from stop line to stop line"
            raise Fault(f"volumes: cabinet {it.cabinet}, movement {it.name}: {words}")
        there = approaches.get((onward.cabinet, onward.approach))
        if there is None:
            where = f"{onward.cabinet} {onward.approach}"
            raise Fault(f"volumes: {told(it)} goes to {where}, an approach that doesn't exist")
        if not sum(other.volume for other in there):
            raise Fault(
                f"volumes: approach {onward.approach} of cabinet {onward.cabinet} has no volumes, "
                "which are the shares of those who come from elsewhere"
            )
    for each in all_of(volumes):
        if each.profile is not None and each.profile not in volumes.profiles:
            near = next(iter(difflib.get_close_matches(each.profile, volumes.profiles, 1)), None)
            hint = f"; did you mean {near}?" if near else ""
            raise Fault(f"volumes: {told(each)}: no profile {each.profile}{hint}")


def profiles_cover(volumes: Volumes, scenario: dict[str, Any], seconds: float) -> None:
    """Refuses a profile that doesn't cover some time of the run."""
    used = {it.profile for it in all_of(volumes) if it.profile is not None}
    start = starts_at(scenario)
    for name in sorted(used):
        profile = volumes.profiles[name]
        if profile.steps[0][0] > start or profile.until < start + seconds:
            raise Fault(
                f"volumes: profile {name} covers {hours_text(profile.steps[0][0])} to {hours_text(profile.until)}, "
                f"and the run is from {hours_text(start)} to {hours_text(start + seconds)}"
            )


def starts_at(scenario: dict[str, Any]) -> float:
    """Returns the time of day at which a run begins: the clock of its first cabinet, in seconds."""
    return scenario["cabinets"][0].get("clock", 0) / 10


def capacities_hold(volumes: Volumes) -> None:
    """Refuses a volume that is too large for the minimum headway at the largest factor of its profile."""
    for it in volumes.flows:
        steps = volumes.profiles[it.profile].steps if it.profile else ((0.0, 1.0),)
        most = it.volume * volumes.factor * max(factor for _, factor in steps)
        if it.headway and most * it.headway / it.lanes >= 3600:
            raise Fault(
                f"volumes: {told(it)}: {most:g} vehicles an hour can't come {it.headway:g} s apart in "
                f"{it.lanes} lane{'s'[: it.lanes > 1]}"
            )
