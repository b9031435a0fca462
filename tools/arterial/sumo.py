"""The traffic of an environment from SUMO: its vehicles and the cabinets of a session side by side, step by step."""

import contextlib
import os
import pathlib
import tempfile
from typing import Any

import numpy

from streettools.cosim import checks, drive, network
from streettools.cosim.loop import Given, Loop, built_areas
from streettools.cosim.mapping import Map, read_map
from streettools.cosim.session import Session

from .errors import Error, Refused

TICK = 0.1
_open: list["Sumo"] = []
"""The run of SUMO that is open: its module has one at a time in a process."""


class Kept(Session):
    """A session that keeps the lines of its last ticks."""

    lines: list[bytes] = []

    def tick(self, count: int, before: list[bytes]) -> list[bytes]:
        """Takes ticks after other requests."""
        self.lines = super().tick(count, before)
        return self.lines


class Steps(Loop):
    """A run whose steps are taken by its caller, which adds its own requests."""

    own: list[bytes] = []
    detects = True

    def requests(self, is_whole: bool) -> list[bytes]:
        """Returns the requests to the cabinets before the ticks."""
        found = list(super().requests(is_whole))
        if not self.detects:
            found = [it for it in found if not it.startswith(b"veh ")]
        return self.own + found


def read(
    config: str | os.PathLike[str], street: str | os.PathLike[str]
) -> tuple[drive.Config, Map, network.Network]:
    """Reads a configuration of SUMO and the map of its street."""
    found = drive.read_config(pathlib.Path(config).resolve())
    return found, read_map(pathlib.Path(street)), network.read(found.network)


def phases_by_lane(street: Map) -> dict[str, tuple[int, int]]:
    """Returns for each lane before a stop line its cabinet and the phase of its first movement, both from 0."""
    found: dict[str, tuple[int, int]] = {}
    for signal in street.signals:
        for movement in signal.movements:
            if movement.walk:
                continue
            for name in movement.links:
                found.setdefault(name.split(" ")[0], (signal.cabinet - 1, movement.phases()[0] - 1))
    return found


class Sumo:
    """SUMO under the cabinets of a session, with the interface of `Queues`. Vehicles slower than 0.1 m/s on the last
    lane before a stop line wait, which is checked once a second; `passed` are the vehicles that arrived."""

    def __init__(
        self, program: str, scenario: dict[str, Any], parts: tuple[drive.Config, Map, network.Network],
        seconds: float, ticks: int, seed: int, keeps: bool,
    ) -> None:  # fmt: skip
        if _open:
            raise Refused("", ("SUMO runs once in a process: close() the other environment, or use VectorEnv",))
        config, street, known = parts
        self.given = Given(config, street, known, scenario, ticks * TICK, seconds, seed)
        self.queues = numpy.zeros((len(scenario["cabinets"]), 16), dtype=numpy.float32)
        self.places = phases_by_lane(street)
        self.step, self.stopped, self.passed = 0, 0, 0
        self.standing: set[str] = set()
        self.sumo = drive.module()
        self.room = tempfile.TemporaryDirectory(prefix="arterial-sumo-")
        self.session = Kept(program, self.given.for_session())
        try:
            self.begin(pathlib.Path(self.room.name), seconds, seed)
        except BaseException:
            self.end()
            raise
        self.shown = [it for it in self.session.opened if it[:1] == b"F"]

    def begin(self, out: pathlib.Path, seconds: float, seed: int) -> None:
        """Checks the map, and starts SUMO."""
        given = self.given
        checks.check(given.street, given.network, given.scenario)
        areas, added = built_areas(given.street, given.network, out)
        start = drive.Start(given.config, added, given.step, seconds, seed & 0x7FFFFFFF, out)
        try:
            with drive.quiet(out / drive.LOG):
                self.sumo.start(start.words())
        except Exception as fault:
            raise Error(f"SUMO: {drive.told(out / drive.LOG, fault)}") from None
        _open.append(self)
        self.loop = Steps(given, self.sumo, self.session, areas)
        self.loop.signals.show(self.sumo, self.session.opened, 0)

    @property
    def count(self) -> int:
        """Returns how many samples the run has."""
        return self.given.steps()

    def sample(self, own: list[bytes], detects: bool) -> list[bytes]:
        """Takes a step of SUMO and its ticks; returns the frame lines."""
        loop = self.loop
        loop.own, loop.detects = own, detects
        each = max(round(1 / self.given.step), 1)
        try:
            loop.step(self.step, (self.step + 1) % each == 0)
        except self.errors() as fault:
            raise Error(f"SUMO: {drive.told(pathlib.Path(self.room.name) / drive.LOG, fault)}") from None
        self.step += 1
        self.passed = int(self.sumo.simulation.getArrivedNumber())
        rows = loop.halts.standing
        now = {name for lane in self.places for name in rows.get(lane, ())}
        self.stopped, self.standing = len(now - self.standing), now
        return [it for it in self.session.lines if it[:1] == b"F"]

    def errors(self) -> tuple[type[Exception], ...]:
        """Returns the exceptions of SUMO's module."""
        names = (getattr(self.sumo, name, None) for name in ("TraCIException", "FatalTraCIError"))
        return tuple(it for it in names if it is not None)

    def waiting(self) -> int:
        """Returns how many vehicles wait before stop lines."""
        return len(self.standing)

    def counted(self) -> Any:
        """Returns how many vehicles have stopped, by cabinet and phase."""
        self.queues.fill(0.0)
        for lane, names in self.loop.halts.standing.items():
            if lane in self.places:
                self.queues[self.places[lane]] += len(names)
        return self.queues

    def finish(self) -> None:
        """Ends the session at the end of its round."""
        self.session.close()

    def report(self) -> dict[str, Any]:
        """Refuses a report: it is made of files that SUMO writes at its end."""
        raise Error("with SUMO there is no table of movements: `arterial cosim run` reports them")

    def trace(self) -> bytes:
        """Returns the trace of a run that has ended."""
        return b"".join(self.session.record.trace())

    def end(self) -> None:
        """Ends SUMO and the program."""
        if self in _open:
            _open.remove(self)
            with contextlib.suppress(Exception):
                self.sumo.close()
        self.session.end()
        self.room.cleanup()
