"""Environments for learners, with gymnasium's interface: signals of a street under traffic.

Whatever a learner asks for, the cabinets decide as real controllers do: a call is served when its turn comes, a green
is held up to its maximum or its force point, a pattern is taken up by its transition. So no action can show conflicting
greens or a short clearance: with a proved program that is proved (docs/GUARANTEES.md).

>>> import arterial.env
>>> scenario = {"version": 1, "rounds": 300, "ticks": 10, "cabinets": [{"pattern": 1}]}
>>> movements = [{"name": f"M{it}", "phase": it, "volume": 100 if it % 2 else 400} for it in range(1, 9)]
>>> env = arterial.env.StreetEnv(scenario, {"cabinet": [{"number": 1, "movements": movements}]}, seconds=300)
>>> observation, info = env.reset(seed=7)
>>> observation.shape, env.patterns
((1, 3, 16), [0, 1])
>>> observation, reward, terminated, truncated, info = env.step([1])
>>> reward, terminated, truncated, info["time_s"]
(-1.0, False, False, 1.0)
>>> env.close()
"""

import os
import random
import weakref
from collections.abc import Callable, Mapping, Sequence
from typing import TYPE_CHECKING, Any, ClassVar, Self

import numpy

from streettools.cabinet.messages import SET, message
from streettools.cosim.queues import checks
from streettools.shared import oids
from streettools.shared.cells import tables_of

from . import spaces
from .errors import Error, Over, Refused, own
from .given import value_of
from .lives import end_here
from .programs import path_of
from .traces import Trace, table
from .traffic import Queues, read
from .vector import VectorEnv

if TYPE_CHECKING:
    import pandas

    from . import traffic
    from .given import Given
    from .sumo import Sumo

    Volumes = traffic.Given
    Path = str | os.PathLike[str]
    Observation = numpy.ndarray[Any, numpy.dtype[numpy.float32]]

SAMPLES = {0.1: 1, 0.2: 2, 0.5: 5, 1.0: 10}
"""The seconds between two samples of the detectors, with their ticks."""
ACTIONS = ("patterns", "calls")
REWARDS = ("delay", "stops")
COLOURS = numpy.zeros(256, dtype=numpy.float32)
COLOURS[[ord("C"), ord("Y"), ord("G")]] = 1.0, 2.0, 3.0
"""What a phase shows, by its letter: 0 red, 1 red clearance, 2 yellow, 3 green."""
QUEUE, SHOWS, SINCE = range(3)
"""The rows of an observation of one cabinet."""
Reward = str | Mapping[str, float] | Callable[[dict[str, float]], float]


def weights_of(reward: "Reward") -> "Mapping[str, float] | Callable[[dict[str, float]], float]":
    """Returns how a reward is computed."""
    if callable(reward):
        return reward
    found = {reward: 1.0} if isinstance(reward, str) else dict(reward)
    if not found or any(name not in REWARDS for name in found):
        known = " or ".join(REWARDS)
        raise Refused("", (f"reward: expected {known}, weights of these or a function, found {reward!r}",))
    return {name: float(weight) for name, weight in found.items()}


class StreetEnv(spaces.Env):
    """A street with traffic: vehicles of the model of queues (docs/QUEUES.md), or of SUMO (docs/COSIM.md).

    - `scenario`: the cabinets, as for `arterial.run`; its own inputs of detectors and buttons are ignored;
    - `volumes`: the traffic: the path of a file of volumes (docs/QUEUES.md), or its content as a dict;
    - `sumo`: in place of volumes, the path of a configuration of SUMO (.sumocfg) and that of the street's map. A
      process has one SUMO at a time. Vehicles slower than 0.1 m/s on the last lane before a stop line wait, which is
      checked once a second; `passed` counts the vehicles that arrived;
    - `seconds`: the length of an episode; `step_s`: the seconds of a step, a multiple of `sample_s`; `sample_s`: the
      seconds between two samples of the detectors (0.1, 0.2, 0.5 or 1);
    - `actions`: `patterns`: an action has for each cabinet the place of its pattern in `env.patterns`. `calls`: an
      action has 0 or 1 for each cabinet and phase, an array of shape (cabinets, 16): whether the phase's detector is on
      during the step. It calls the phase, and holds its green as a vehicle would; vehicles themselves are not detected;
    - `patterns`: the patterns that may be commanded (default: 0, free operation, and all that every cabinet defines);
    - `reward`: `delay` is minus the vehicle-seconds waited in the step, `stops` minus the vehicles that began to wait;
      a dict has a weight for each of the two; a function takes `info` and returns the reward;
    - `program`: as for `arterial.run`; `keep_trace`: whether `env.trace` has the trace of an episode that has ended.

    An observation is an array of shape (cabinets, 3, 16), whose last place is the phase, from 0: in row 0 the vehicles
    that wait, in row 1 what the phase shows (0 red, 1 red clearance, 2 yellow, 3 green), in row 2 for how many seconds.

    An episode is `reset(seed)`, then `step(action)` until `truncated`; it never terminates. A seed gives the same
    traffic whatever the actions are. `info` has `time_s`, `waiting` (vehicles), `delay_s` and `stops` of the step, and
    `passed` (stop lines passed in the step). After the end of an episode, and after `close`, a step raises `Over`.
    """

    metadata: ClassVar[dict[str, Any]] = {"render_modes": []}
    render_mode: str | None = None
    spec: Any = None

    def __init__(
        self, scenario: "Given", volumes: "Volumes | None" = None, *, sumo: "tuple[Path, Path] | None" = None,
        seconds: float = 900.0, step_s: float = 1.0, sample_s: float = 1.0, actions: str = "patterns",
        patterns: Sequence[int] | None = None, reward: "Reward" = "delay",
        program: str | os.PathLike[str] | None = None, keep_trace: bool = False,
    ) -> None:  # fmt: skip
        self._setup(scenario, seconds, step_s, sample_s, actions, reward)
        with own():
            self._make = self._traffic(volumes, sumo)
        self.patterns = self._patterns(patterns)
        self._program, self._keeps = str(path_of(program)), keep_trace
        self.cabinets = len(self.scenario["cabinets"])
        """The number of cabinets."""
        self.observation_space = spaces.box((self.cabinets, 3, 16))
        many = (self.cabinets, 16)
        self.action_space = (
            spaces.switches(many) if actions == "calls" else spaces.choices([len(self.patterns)] * self.cabinets)
        )
        self._commands = self._messages()
        self._random = random.Random()
        self._run: Queues | Sumo | None = None
        self._ended: Queues | Sumo | None = None
        self._trace: Trace | None = None
        self._finalizer: Any = None

    def _setup(
        self, scenario: "Given", seconds: float, step_s: float, sample_s: float, actions: str, reward: "Reward"
    ) -> None:
        """Takes over what doesn't depend on the traffic."""
        self.scenario = value_of(scenario)
        self.seconds, self.step_s, self.sample_s = float(seconds), float(step_s), float(sample_s)
        if sample_s not in SAMPLES:
            raise Refused("", (f"sample_s: expected {', '.join(map(str, SAMPLES))}, found {sample_s!r}",))
        self._samples = round(self.step_s / self.sample_s)
        if self._samples < 1 or abs(self._samples * self.sample_s - self.step_s) > 1e-9:
            raise Refused("", (f"step_s: expected a multiple of sample_s ({sample_s:g}), found {step_s!r}",))
        if not self.step_s <= self.seconds or self.seconds / self.step_s % 1 > 1e-9:
            raise Refused("", (f"seconds: expected a multiple of step_s ({step_s:g}), found {seconds!r}",))
        if actions not in ACTIONS:
            raise Refused("", (f"actions: expected {' or '.join(ACTIONS)}, found {actions!r}",))
        self.actions, self._reward = actions, weights_of(reward)

    def _traffic(self, volumes: "Volumes | None", sumo: "tuple[Path, Path] | None") -> Callable[..., "Queues | Sumo"]:
        """Returns what makes the traffic of an episode, by the program, the ticks of a sample, the seed, and whether a
        trace is kept."""
        if (volumes is None) == (sumo is None):
            raise Refused("", ("expected either volumes or sumo",))
        if sumo is not None:
            if not isinstance(sumo, tuple) or len(sumo) != 2:
                raise Refused("", (f"sumo: expected the paths of a configuration and of a map, found {sumo!r}",))
            from .sumo import Sumo, read as read_sumo

            parts = read_sumo(*sumo)
            return lambda program, *rest: Sumo(program, self.scenario, parts, self.seconds, *rest)
        assert volumes is not None
        self.volumes = read(volumes)
        checks.check(self.volumes, self.scenario, self.seconds)
        return lambda program, *rest: Queues(program, self.scenario, self.volumes, self.seconds, *rest)

    def _patterns(self, given: Sequence[int] | None) -> list[int]:
        """Returns the patterns that may be commanded."""
        if given is None:
            with own():
                defined = [set(tables_of(it).patterns()) for it in self.scenario["cabinets"]]
            return [0, *sorted(set.intersection(*defined))]
        if not given or any(type(it) is not int or not 0 <= it <= 255 for it in given):
            raise Refused("", (f"patterns: expected numbers from 0 to 255, found {given!r}",))
        return list(given)

    def _messages(self) -> list[list[bytes]]:
        """Returns for each cabinet the request that commands each pattern."""
        community = self.scenario.get("community", "public").encode()
        sets = [message(SET, 1, [(oids.CONTROL, it)], community).hex().encode() for it in self.patterns]
        return [[b"frame %d priority %b" % (number, it) for it in sets] for number in range(1, self.cabinets + 1)]

    # gymnasium's interface

    @property
    def unwrapped(self) -> "StreetEnv":
        """The environment itself."""
        return self

    def reset(
        self, *, seed: int | None = None, options: Mapping[str, Any] | None = None
    ) -> "tuple[Observation, dict[str, float]]":
        """Begins an episode; returns its first observation and info. Without a seed, each episode has different
        traffic, which follows from the previous seed."""
        if seed is not None and (type(seed) is not int or seed < 0):
            raise Refused("", (f"seed: expected a whole number from 0 on, found {seed!r}",))
        self._end()
        if seed is not None:
            self._random = random.Random(seed)
        drawn = seed if seed is not None else self._random.getrandbits(32)
        with own():
            self._run = self._make(self._program, SAMPLES[self.sample_s], drawn, self._keeps)
        self._finalizer = weakref.finalize(self, end_here, os.getpid(), self._run.end)
        self._letters = [b"R" * 16] * self.cabinets
        self._view: Observation = numpy.zeros((self.cabinets, 3, 16), dtype=numpy.float32)
        self._began = numpy.zeros((self.cabinets, 16), dtype=numpy.float32)
        self._commanded = [-1] * self.cabinets
        self._on = numpy.zeros((self.cabinets, 16), dtype=bool)
        self._taken = 0
        self._shown(self._run.shown)
        return self._observed(), self._info(0.0, 0, 0)

    def step(self, action: Any) -> "tuple[Observation, float, bool, bool, dict[str, float]]":
        """Takes a step: returns observation, reward, `terminated` (always False), `truncated` and info."""
        run = self._run
        if run is None:
            raise Over("the episode has ended: reset() begins the next one")
        requests = self._requests(action)
        delay, stops, passed = 0.0, 0, 0
        try:
            with own():
                for _ in range(self._samples):
                    self._shown(run.sample(requests, self.actions != "calls"))
                    requests = []
                    delay += run.waiting() * self.sample_s
                    stops += run.stopped
                    passed += run.passed
        except BaseException:
            self._end()
            raise
        self._taken += 1
        observation, info = self._observed(), self._info(delay, stops, passed)
        truncated = self._taken * self._samples >= run.count
        if truncated:
            self._finished()
        return observation, self._rewarded(info), False, truncated, info

    def close(self) -> None:
        """Ends the program. An environment can be reset again after that."""
        self._end()

    def render(self) -> None:
        """Does nothing: `keep_trace=True` and `env.trace.plot(..)` show an episode."""

    def __enter__(self) -> Self:
        return self

    def __exit__(self, *_: object) -> None:
        self.close()

    @property
    def trace(self) -> Trace:
        """The trace of the episode that ended last, if `keep_trace` is true."""
        if self._trace is None:
            raise Error("no episode has ended whose trace was kept (keep_trace=True)")
        return self._trace

    def movements(self) -> "pandas.DataFrame":
        """Returns the measures of the last finished episode, one row for each movement, with the columns of `cosim
        queues` (docs/QUEUES.md).

        Columns: `cabinet`, `movement`, `phase`, `vehicles` (that passed), `delay_s` (mean) and `delay_95_s` (95 %),
        `level` (of service), `stops` (mean), `on_green`, `green` and `platoon_ratio`, `queue_mean`, `queue_greatest`
        and `left` (at the end), in vehicles, `greens` and `split_failures`.
        """
        if self._ended is None:
            raise Error("no episode has ended")
        with own():
            rows = self._ended.report()["movements"]
        found = table((tuple(it.values()) for it in rows), *rows[0])
        return found.rename(columns={"delay": "delay_s", "delay_95": "delay_95_s"})

    # parts of a step

    def _requests(self, action: Any) -> list[bytes]:
        """Returns what an action asks of the cabinets: what differs from the step before."""
        given = numpy.asarray(action)
        if not self.action_space.contains(given):
            raise Refused("", (f"the action isn't in {self.action_space}",))
        if self.actions == "calls":
            return self._switched(given.astype(bool))
        found = []
        for cabinet, place in enumerate(given.tolist()):
            if self._commanded[cabinet] != place:
                self._commanded[cabinet] = place
                found.append(self._commands[cabinet][place])
        return found

    def _switched(self, wanted: Any) -> list[bytes]:
        """Returns the detectors that turn on or off."""
        changed = numpy.argwhere(wanted != self._on).tolist()
        self._on = wanted
        return [b"veh %d %d %b" % (at + 1, phase + 1, b"on" if wanted[at, phase] else b"off") for at, phase in changed]

    def _shown(self, lines: list[bytes]) -> None:
        """Takes over the frame lines of a sample."""
        for line in lines:
            _, number, tick, vehicles, _ = line.split(b" ", 4)
            place, before = int(number) - 1, self._letters[int(number) - 1]
            if vehicles != before:
                now, was = (numpy.frombuffer(it, dtype=numpy.uint8) for it in (vehicles, before))
                self._view[place, SHOWS] = COLOURS[now]
                self._began[place][now != was] = int(tick) / 10
                self._letters[place] = vehicles

    def _observed(self) -> "Observation":
        """Returns the observation of this moment, which later steps don't change."""
        assert self._run is not None
        self._view[:, QUEUE] = self._run.counted()
        self._view[:, SINCE] = self._taken * self.step_s - self._began
        return self._view.copy()

    def _info(self, delay: float, stops: int, passed: int) -> dict[str, float]:
        """Returns what is known of a step."""
        assert self._run is not None
        waiting = float(self._run.waiting())
        time_s = round(self._taken * self.step_s, 1)
        return {"time_s": time_s, "waiting": waiting, "delay_s": delay, "stops": stops, "passed": passed}

    def _rewarded(self, info: dict[str, float]) -> float:
        """Returns the reward of a step."""
        by = self._reward
        if callable(by):
            return float(by(info))
        return -(by.get("delay", 0.0) * info["delay_s"] + by.get("stops", 0.0) * info["stops"]) or 0.0

    def _finished(self) -> None:
        """Ends an episode that has had its last step."""
        run = self._run
        assert run is not None
        try:
            if self._keeps:
                with own():
                    run.finish()
                    self._trace = Trace(run.trace())
        finally:
            self._ended = run
            self._end()

    def _end(self) -> None:
        """Ends the program, if it runs."""
        if self._run is not None:
            self._run.end()
            self._run = None
            self._finalizer.detach()


__all__ = ["StreetEnv", "VectorEnv"]
