"""The traffic of an environment: vehicles in queues, step by step with the cabinets of a session."""

import os
import pathlib
from typing import Any

import numpy

from streettools.cosim import report, undisturbed
from streettools.cosim.queues import checks
from streettools.cosim.queues.demand import demand_of
from streettools.cosim.queues.session import Cabinets
from streettools.cosim.queues.signals import Signals
from streettools.cosim.queues.street import Street
from streettools.cosim.queues.study import Asked, Ran, session_of, study_of
from streettools.cosim.queues.volumes import Volumes, volumes_of
from streettools.shared.given import content_of, toml_of

from .errors import Refused

Given = Volumes | dict[str, Any] | str | os.PathLike[str]
"""Volumes as `arterial.env.StreetEnv` takes them: the path of a file, the content of one as a dict, or `Volumes`."""


def read(given: Given) -> Volumes:
    """Returns volumes."""
    if isinstance(given, Volumes):
        return given
    if isinstance(given, dict):
        return volumes_of(given)
    if isinstance(given, (str, os.PathLike)):
        return volumes_of(toml_of(content_of(pathlib.Path(given)), os.fspath(given)))
    raise Refused("", (f"volumes: expected a path, a dict or Volumes, found {type(given).__name__}",))


class Queues:
    """A street of queues under the cabinets of a session: `queues` has how many vehicles wait, by cabinet and phase,
    both counted from 0; `stopped` how many began to wait in the last sample, `passed` how many passed a stop line."""

    def __init__(
        self, program: str, scenario: dict[str, Any], volumes: Volumes, seconds: float, ticks: int, seed: int,
        keeps: bool,
    ) -> None:  # fmt: skip
        asked = Asked(seconds, ticks, seed, keeps_trace=keeps)
        made, self.steps = session_of(scenario, asked)
        self.volumes = volumes
        demand = demand_of(volumes, seed, checks.starts_at(scenario), seconds)
        self.street = Street(volumes, demand, self.steps)
        self.signals = Signals(len(scenario["cabinets"]))
        self.places = [((it.cabinet - 1), it.phase - 1) for it in volumes.flows]
        self.queues = numpy.zeros((len(scenario["cabinets"]), 16), dtype=numpy.float32)
        self.step, self.stopped, self.passed = 0, 0, 0
        self.cabinets = Cabinets(program, made, keeps)
        self.signals.shown(self.cabinets.shown)
        self.shown: list[bytes] = self.cabinets.shown

    @property
    def count(self) -> int:
        """Returns how many samples the run has."""
        return self.steps.count

    def sample(self, own: list[bytes], detects: bool) -> list[bytes]:
        """Takes a sample: brings requests of one's own and what detectors see, takes its ticks, moves vehicles.
        Returns the frame lines. `detects` is false if the detectors are the caller's."""
        street, step = self.street, self.step
        requests = street.requests(step)
        if not detects:
            requests = [it for it in requests if it[:1] == b"p"]
        lines = self.cabinets.step(own + requests if own else requests, self.steps.ticks)
        before = self.waiting()
        came = len(street.reached[step])
        street.follow(step, self.signals.shown(lines))
        after = self.waiting()
        self.passed = before + came - after
        self.stopped = self.count_stopped(step)
        self.step = step + 1
        return lines

    def waiting(self) -> int:
        """Returns how many vehicles are before their stop lines."""
        return sum([len(it.queue) for it in self.street.lines])

    def count_stopped(self, step: int) -> int:
        """Returns how many vehicles reached a stop line in a sample and still wait there."""
        start, found = step * self.street.size, 0
        for line in self.street.lines:
            for arrived, _ in reversed(line.queue):
                if arrived < start:
                    break
                found += 1
        return found

    def counted(self) -> Any:
        """Returns how many vehicles wait, by cabinet and phase."""
        queues = self.queues
        queues.fill(0.0)
        for place, line in zip(self.places, self.street.lines):
            if line.queue:
                queues[place] += len(line.queue)
        return queues

    def finish(self) -> None:
        """Ends the run at the end of its round."""
        self.cabinets.close()

    def report(self) -> dict[str, Any]:
        """Returns the report of a run that has ended, as `arterial cosim queues --json` writes it."""
        street, asked = self.street, Asked(self.steps.seconds, self.steps.ticks)
        self.signals.close(self.steps.seconds)
        ran = Ran(self.volumes, asked, street, self.signals, street.demand, len(self.queues), None)
        study = study_of(ran, pathlib.Path("session.trace"))
        quiet = undisturbed.shares(self.trace(), 0.0, study.seconds) if self.cabinets.records else {}
        return report.collect(study, self.signals.greens, report.More(undisturbed=quiet))

    def trace(self) -> bytes:
        """Returns the trace of a run that has ended and was kept."""
        return self.cabinets.trace()

    def end(self) -> None:
        """Ends the program."""
        self.cabinets.end()
