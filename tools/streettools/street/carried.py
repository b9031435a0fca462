"""The scenario of the session that follows another one: what the cabinets have then is what the next one begins with.

Carried over are tables, commanded patterns, clocks, inputs that are on, and all that the scenario has for later rounds.
Start-up loses the rest: greens, calls, the counter of the cycle, a running preempt, an open download, the master's
commands under way.
"""

from typing import TYPE_CHECKING, Any

from ..cabinet.messages import GET, message
from ..shared.ber import OCTETS, Arcs, Field, number_of
from ..shared.cells import kinds, value
from ..shared.oids import CLOCK, CONTROL, VERSION, object_of
from ..shared.session import LISTS
from ..shared.snmp import message_of
from ..shared.tables import Cell, Tables

if TYPE_CHECKING:
    from .street import Street

AT_ONCE = 30
"""How many objects a message asks for."""
DAY = 864_000


class Unread(Exception):
    """A cabinet doesn't answer: its session is over."""


async def read(street: "Street", cabinet: int, names: list[Arcs]) -> list[Field]:
    """Returns the values of some objects."""
    octets = message(GET, 1, [(name, None) for name in names], street.community())
    reply = await street.message(cabinet, octets)
    if reply is None:
        raise Unread
    return [it.value for it in message_of(reply).bindings]


def told(field: Field) -> int | str:
    """Returns a value as scenarios have it: a number, or phases as hexadecimal digits."""
    return field.content.hex() if field.tag == OCTETS else number_of(field.content)


async def cells_of(street: "Street", cabinet: int, base: str) -> list[list[Any]]:
    """Returns the cells of a cabinet that differ from those of its standard table."""
    standard, found = Tables(base), []
    cells: list[Cell] = list(kinds())
    for at in range(0, len(cells), AT_ONCE):
        part = cells[at : at + AT_ONCE]
        for cell, field in zip(part, await read(street, cabinet, [object_of(it) for it in part]), strict=True):
            usual = value(standard, cell)
            if told(field) != (bytes(usual).hex() if isinstance(usual, tuple) else usual):
                found.append([*cell, told(field)])
    return found


async def cabinet_of(street: "Street", cabinet: int, left: int) -> dict[str, Any]:
    """Returns a cabinet as it will be in `left` ticks."""
    setup: dict[str, Any] = street.scenario["cabinets"][cabinet - 1]
    values = await read(street, cabinet, [CLOCK, CONTROL, VERSION])
    clock, pattern, version = (number_of(it.content) for it in values)
    made = setup | {"clock": (clock + left) % DAY, "pattern": pattern}
    return made | {"cells": await cells_of(street, cabinet, setup.get("base", "std8"))} if version else made


def later(items: list[dict[str, Any]], done: int) -> list[dict[str, Any]]:
    """Returns the items of later rounds, when `done` rounds are done."""
    return [it | {"round": it["round"] - done} for it in items if it["round"] > done]


async def next_scenario(street: "Street") -> dict[str, Any]:
    """Returns the scenario with which the next session begins, once this one has ended its round."""
    session, scenario = street.session, street.scenario
    left, ticks = session.rounds.left, scenario["ticks"]
    done = (session.taken + left) // ticks
    count = len(scenario["cabinets"])
    made = scenario | {"cabinets": [await cabinet_of(street, number, left) for number in range(1, count + 1)]}
    made |= {name: later(scenario[name], done) for name in LISTS if name in scenario}
    on = [{"round": 1, "cabinet": it, kind: place, "on": True} for kind, it, place in sorted(street.inputs.on)]
    if on:
        made["inputs"] = on + made.get("inputs", [])
    if "master" in scenario:
        master = scenario["master"]
        made["master"] = master | {"clock": (master.get("clock", 0) + done * ticks) % DAY}
    return made
