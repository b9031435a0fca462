"""The traffic of a log as a scenario: what detectors, buttons, preempts and priority requests reported, and the
patterns that ran, arrive at the cabinets of the bench at the same times.

An input arrives before the ticks of its round. So rounds are as short as a scenario of that length may have: a tick up
to 2.4 hours, a second for a day.
"""

import json
import pathlib
from typing import Any

import numpy as np

from ..cabinet.messages import SET, message
from ..plan import names as street_names
from ..shared import event_codes as codes
from ..shared import files
from ..shared.fault import Fault
from ..shared.oids import CONTROL
from ..shared.values import MOST_BYTES
from . import inputs, times
from .inputs import Bank
from .reading import Log
from .spans import Span
from .stretches import where

MOST_ROUNDS = 86_400
MOST_INPUTS, MOST_FRAMES = 1_000_000, 100_000
MOST_TICKS = 55_296_000
MOST_DEPARTURE = 65_535


class Replay:
    """A scenario that is made of a log."""

    def __init__(self, log: Log, span: Span, priority: dict[int, int]) -> None:
        self.log, self.span, self.priority = log, span, priority
        length = span.end - span.begin
        self.ticks = -(-length // MOST_ROUNDS)
        self.rounds = -(-length // self.ticks)
        self.inputs: list[dict[str, Any]] = []
        self.frames: list[dict[str, Any]] = []
        self.requests: list[dict[str, Any]] = []
        self.patterns: dict[int, int] = {}

    def round_after(self, tick: int) -> int:
        """Returns the round in which something arrives that happened after a tick."""
        return (tick - self.span.begin) // self.ticks + 1

    def round_before(self, tick: int) -> int:
        """Returns the round in which something arrives so that it has an effect at a tick."""
        return max(0, tick - self.span.begin - 1) // self.ticks + 1

    def rows_of(self, device: str) -> tuple[Any, Any]:
        """Returns the rows of a device before the span, and those in it; in the order of time."""
        rows = np.concatenate([*self.log.stretches_of(device)] or [np.empty(0, np.int64)])
        rows = rows[np.argsort(rows["tick"], kind="stable")]
        return rows[rows["tick"] < self.span.begin], rows[
            (rows["tick"] >= self.span.begin) & (rows["tick"] < self.span.end)
        ]

    def take(self, device: str) -> None:
        """Takes the rows of a device."""
        cabinet = self.log.devices[device]
        before, rows = self.rows_of(device)
        bank = Bank(self.log.plan.channels.get(cabinet, {}))
        self.inputs += self.opening(before, rows, bank, cabinet)
        for it in inputs.inputs(rows, bank, cabinet, self.log.findings):
            found: dict[str, Any] = {"round": self.round_after(it.tick), "cabinet": cabinet, it.kind: it.number}
            self.inputs.append(found if it.kind == "ped" else found | {"on": it.on})
        self.take_patterns(before, rows, cabinet)
        self.take_priority(rows, cabinet)

    def opening(self, before: Any, rows: Any, bank: Bank, cabinet: int) -> list[dict[str, Any]]:
        """Returns the detectors that are on as the span begins: those whose last row before it, or else whose first row
        in it, says so."""
        on: set[int] = set()
        known: set[int] = set()
        for _, code, channel in before[np.isin(before["code"], tuple(inputs.DETECTORS))].tolist():
            known.add(channel)
            (on.add if inputs.DETECTORS[code] else on.discard)(channel)
        for _, code, channel in rows[np.isin(rows["code"], tuple(inputs.DETECTORS))].tolist():
            if channel not in known and not inputs.DETECTORS[code]:
                on.add(channel)
            known.add(channel)
        found = [bank.take(self.span.begin, channel, True) for channel in sorted(on)]
        return [{"round": 1, "cabinet": cabinet, "veh": it.number, "on": True} for it in found if it]

    def take_patterns(self, before: Any, rows: Any, cabinet: int) -> None:
        """Takes the patterns that ran: the last one before the span is that of the opening; each later one is commanded
        by a message."""
        earlier = before[before["code"] == codes.PATTERN_CHANGE]
        if len(earlier):
            self.patterns[cabinet] = int(earlier["parameter"][-1])
        community = str(self.log.plan.scenario.get("community", "public")).encode()
        for tick, _, pattern in rows[rows["code"] == codes.PATTERN_CHANGE].tolist():
            if cabinet not in self.patterns:
                self.patterns[cabinet] = pattern
                continue
            octets = message(SET, len(self.frames) + 1, [(CONTROL, pattern)], community)
            number = self.round_before(tick)
            self.frames.append({"round": number, "cabinet": cabinet, "stream": "poll", "hex": octets.hex()})

    def take_priority(self, rows: Any, cabinet: int) -> None:
        """Takes priority requests, from check in to check out."""
        part = rows[np.isin(rows["code"], (codes.PRIORITY_CHECK_IN, codes.PRIORITY_CHECK_OUT))].tolist()
        for at, (tick, code, number) in enumerate(part):
            if code != codes.PRIORITY_CHECK_IN:
                continue
            out = next((it[0] for it in part[at + 1 :] if it[1:] == (codes.PRIORITY_CHECK_OUT, number)), None)
            if number not in self.priority or not 1 <= number <= 10 or out is None:
                self.log.findings.add("skipped", f"priority request {number} at {where(tick)}", cabinet)
                continue
            self.requests.append({
                "round": self.round_after(tick), "cabinet": cabinet, "number": number, "class": 1, "level": 1,
                "phase": self.priority[number], "arrival": 0, "departure": min(MOST_DEPARTURE, out - tick),
            })  # fmt: skip

    def cabinet(self, number: int, setup: dict[str, Any]) -> dict[str, Any]:
        """Returns a cabinet as it opens: at the time of day of the span, in the pattern that runs then."""
        pattern = self.patterns.get(number, setup.get("pattern", 0))
        return setup | {"clock": self.span.begin % times.DAY, "pattern": pattern}

    def scenario(self) -> dict[str, Any]:
        """Returns the scenario; Fault if it is too long for one."""
        plan = self.log.plan
        cabinets = [self.cabinet(number, it) for number, it in enumerate(plan.scenario["cabinets"], 1)]
        found = plan.head() | {
            "rounds": self.rounds, "ticks": self.ticks, "cabinets": cabinets,
            "master": {"clock": self.span.begin % times.DAY},
        }  # fmt: skip
        if "community" in plan.scenario:
            found["community"] = plan.scenario["community"]
        for name, items, most in (
            ("inputs", self.inputs, MOST_INPUTS), ("priority", self.requests, MOST_FRAMES),
            ("frames", self.frames, MOST_FRAMES),
        ):  # fmt: skip
            if len(items) > most:
                raise Fault(f"{len(items):,} {name}: a scenario has at most {most:,}; {ADVICE}")
            if items:
                found[name] = sorted(items, key=lambda it: int(it["round"]))
        if self.rounds * self.ticks * len(cabinets) > MOST_TICKS:
            most = MOST_TICKS // len(cabinets)
            raise Fault(f"a scenario of {len(cabinets)} cabinets has at most {most:,} ticks; {ADVICE}")
        return found


ADVICE = "--from and --to choose a shorter time"


def replayed(log: Log, span: Span, priority: list[tuple[str, str]]) -> Replay:
    """Returns the replay of a log."""
    phases: dict[int, int] = {}
    for request, phase in priority:
        if not (request.isdecimal() and phase.isdecimal() and 1 <= int(request) <= 10 and 1 <= int(phase) <= 16):
            raise Fault(f"--priority {request}={phase}: a request from 1 to 10, and a phase from 1 to 16")
        phases[int(request)] = int(phase)
    found = Replay(log, span, phases)
    for device in log.devices:
        found.take(device)
    return found


def write(found: Replay, path: str) -> None:
    """Writes the scenario, and the names file next to it if the plan has names."""
    text = json.dumps(found.scenario(), separators=(",", ":"), ensure_ascii=False) + "\n"
    if len(text.encode()) > MOST_BYTES:
        raise Fault(f"the scenario has {len(text):,} bytes, and may have {MOST_BYTES:,}; {ADVICE}")
    with files.output(path) as out:
        out.write(text)
    names = found.log.plan.names.names
    if names is not None and any(it.name for it in names.intersections):
        with files.output(pathlib.Path(path).with_suffix(".names.json")) as out:
            out.write(street_names.text(names))
