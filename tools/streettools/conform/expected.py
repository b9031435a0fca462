"""What the proved cabinet does with the same calls: a session of the program, whose time is that of the device.

The first poll of a test is tick START of the session. Until then the cabinet is in flash, as the device is.
"""

import bisect
from collections.abc import Sequence
from dataclasses import dataclass, field
from typing import Any, NamedTuple

from ..cabinet.messages import GET, SET, message, reply_of
from ..shared.ber import number_of
from ..shared.cells import cells_between, with_cells
from ..shared.oids import (
    BEGIN, CLOCK, CONTROL, COUNTER_OF_CYCLE, FINISH, ID, PART, REQUEST, TOTAL,
)  # fmt: skip
from ..shared.program import Died
from ..shared.session import Answer, Session
from ..shared.tables import Tables
from . import steps
from .driving import CantTell, Driven
from .hands import bindings_of
from .objects import FLASH, FREE, Display
from .scripts import Script
from .steps import Act

START = 300
"""The tick of the session at the first poll. The red revert of every phase is over then."""
AGAIN = 10
"""How many ticks before the first poll flash is commanded again: a command may expire."""
ROUND = 600
PART_CELLS = 24
STATES = (b"off", b"on")


class Frame(NamedTuple):
    """An F line: the display from a tick on."""

    tick: int
    vehicles: str
    pedestrians: str
    mode: str
    counter: int
    version: int

    def display(self) -> Display:
        """Returns the display as the device reports it."""
        number = int(self.mode[1:]) if self.mode[0] in "CK" else FLASH if self.mode == "X" else FREE
        return Display(self.vehicles, self.pedestrians, number, None, self.mode if self.mode[0] == "P" else "")


@dataclass
class Expected:
    """The frames of a session, the counter at some ticks, and how each load ended: "" if it was accepted."""

    frames: list[Frame] = field(default_factory=list)
    counters: dict[int, int] = field(default_factory=dict)
    loads: list[str] = field(default_factory=list)
    ticks: list[int] = field(default_factory=list)
    last: int = 0

    def at(self, tick: int) -> Frame:
        """Returns the frame at a tick."""
        return self.frames[max(0, bisect.bisect_right(self.ticks, tick) - 1)]


def scenario_of(tables: Tables, clock: int = 0) -> dict[str, Any]:
    """Returns the scenario of the proved cabinet: it begins in start-up, on its way to flash."""
    cabinet = {"base": "std8", "cells": cells_between(Tables("std8"), tables), "pattern": FLASH, "clock": clock}
    return {"version": 1, "rounds": 200, "ticks": ROUND, "cabinets": [cabinet]}


class Requests:
    """The requests of a session, by tick."""

    def __init__(self, script: Script, tables: Tables) -> None:
        self.script, self.tables = script, tables
        self.staged: list[list[Any]] | None = None
        self.is_verified = False
        self.loads = self.number = 0

    def frame(self, bindings: list[Any], kind: int = SET) -> bytes:
        """Returns the request of a message."""
        self.number += 1
        return b"frame 1 priority " + message(kind, self.number, bindings).hex().encode()

    def of(self, act: Act) -> list[bytes]:
        """Returns the requests of an act."""
        match act.kind:
            case steps.VEH | steps.PREEMPT:
                return [b"%b 1 %d %b" % (act.kind.encode(), act.number, STATES[act.on])]
            case steps.PED:
                return [b"ped 1 %d" % act.number]
            case steps.PATTERN:
                return [self.frame([(CONTROL, act.number)])]
            case steps.CLOCK:
                return [self.frame([(CLOCK, 10 * act.number)])]
            case steps.PRIORITY:
                return [self.frame([(REQUEST, act.request)])]
            case steps.STAGE:
                self.staged, self.is_verified = self.script.load(act.name, self.tables), False
            case steps.VERIFY:
                self.is_verified = self.staged is not None
            case steps.FORCE | steps.DISCARD:
                return self.download(act.kind == steps.FORCE)
        return []

    def download(self, is_forced: bool) -> list[bytes]:
        """Returns the requests of the load that is staged, all at one tick; none if it is discarded."""
        cells, is_verified = self.staged, self.is_verified
        self.staged, self.is_verified = None, False
        if not cells or not is_verified or not is_forced:
            return []
        self.loads += 1
        self.tables = with_cells(self.tables, cells)
        load = (ID, self.loads)
        bindings = bindings_of(cells)
        parts = [bindings[at : at + PART_CELLS] for at in range(0, len(bindings), PART_CELLS)]
        return [
            self.frame([(BEGIN, self.loads)]),
            *(self.frame([load, (PART, at), *part]) for at, part in enumerate(parts, 1)),
            self.frame([load, (TOTAL, len(parts))]),
            self.frame([load, (FINISH, 1)]),
        ]


def kept_calls(driven: Driven) -> list[bytes]:
    """Returns the requests by which the proved cabinet has the calls that the device has kept."""
    found = []
    for at in range(16):
        if driven.vehicle_calls >> at & 1:
            found += [b"veh 1 %d on" % (at + 1), b"tick 1", b"veh 1 %d off" % (at + 1)]
        if driven.pedestrian_calls >> at & 1:
            found.append(b"ped 1 %d" % (at + 1))
    return found


def expected(
    program: str, script: Script, tables: Tables, driven: Driven, ticks: Sequence[int], asked: Sequence[int]
) -> Expected:
    """Returns what the proved cabinet does: `ticks` are those of the acts, counted from the first poll; `asked` are the
    ticks at which its counter is read."""
    events: list[tuple[int, bytes]] = []
    requests = Requests(script, tables)
    for tick, done in zip(ticks, driven.acts):
        if not done.why:
            events += [(START + tick, it) for it in requests.of(done.act)]
    reads = {START + it for it in asked}
    events += [(it, requests.frame([(COUNTER_OF_CYCLE, None)], GET)) for it in reads]
    events.sort(key=lambda it: it[0])
    again = requests.frame([(CONTROL, FLASH)])
    events.insert(0, (START - AGAIN, again))
    last = START + max((it.span.last for it in driven.samples), default=0) + 400
    try:
        return ran(program, scenario_of(tables), events, kept_calls(driven), last)
    except Died as fault:
        raise CantTell(f"the proved cabinet doesn't accept these tables: {fault}") from None


def ran(
    program: str, scenario: dict[str, Any], events: list[tuple[int, bytes]], kept: list[bytes], last: int
) -> Expected:
    """Runs a session with events at ticks, and takes its answers."""
    found = Expected(last=last)
    with Session(program, scenario) as session:
        take(found, 0, session.opened)
        before = [b"tick 100", *kept]
        passed = 100 + kept.count(b"tick 1")
        assert passed <= START
        asked = [(it, 0) for it in before]
        session.rounds.next(passed)
        at = passed
        for tick, request in events:
            asked += [(it, 0) for it in session.rounds.requests(tick - at)]
            at = tick
            asked.append((request, tick))
        asked += [(it, 0) for it in session.rounds.requests(last - at)]
        for place in range(0, len(asked), 64):
            some = asked[place : place + 64]
            for (request, tick), answer in zip(some, session.ask([it for it, _ in some])):
                take(found, tick, answer)
    found.ticks = [it.tick for it in found.frames]
    return found


def take(found: Expected, tick: int, answer: Answer) -> None:
    """Takes the lines of an answer."""
    for line in answer:
        words = line.decode("ascii").split(" ")
        if words[0] == "F":
            found.frames.append(
                Frame(int(words[2]), words[3], words[4], words[5], int(words[6]), int(words[8]))
            )
        elif words[0] == "L":
            found.loads.append("" if words[3] == "accepted" else f"rule {words[4]} at row {words[5]}")
        elif words[0] == "A" and words[3] != "-":
            reply = reply_of(bytes.fromhex(words[3]))
            for name, _, content in reply.bindings:
                if name == COUNTER_OF_CYCLE:
                    found.counters[tick] = number_of(content)
