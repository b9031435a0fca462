"""Several environments at once, each in a process of its own."""

import contextlib
import multiprocessing
from collections.abc import Callable, Sequence
from multiprocessing.connection import Connection
from typing import Any, Self

import numpy

from .errors import Error, Over, Refused
from .spaces import Space

MOST = 256
"""The maximum number of processes."""
SECONDS = 10.0
"""How long a process may take to end."""


def serve(make: Callable[[], Any], pipe: Connection, others: list[Connection]) -> None:
    """Serves an environment in a process: answers each request with its result, or with the exception, until its pipe
    is closed. `others` are the ends of pipes that belong to the caller's process."""
    for it in others:
        it.close()
    with contextlib.suppress(EOFError, BrokenPipeError, KeyboardInterrupt):
        try:
            env = make()
        except Exception as fault:
            pipe.send((False, as_sent(fault)))
            return
        pipe.send((True, (env.observation_space, env.action_space)))
        try:
            while True:
                name, given = pipe.recv()
                try:
                    pipe.send((True, answered(env, name, given)))
                except Exception as fault:
                    pipe.send((False, as_sent(fault)))
        finally:
            env.close()


def as_sent(fault: Exception) -> Exception:
    """Returns an exception that can be sent."""
    return fault if isinstance(fault, Error) else Error(f"{type(fault).__name__}: {fault}")


def answered(env: Any, name: str, given: Any) -> Any:
    """Returns the answer of an environment. One whose episode has ended begins the next one at once; info then has the
    last observation and info of the one before."""
    if name == "reset":
        return env.reset(seed=given)
    observation, reward, terminated, truncated, info = env.step(given)
    if terminated or truncated:
        last = {"final_observation": observation, "final_info": info}
        observation, info = env.reset()
        info = info | last
    return observation, reward, terminated, truncated, info


class VectorEnv:
    """Environments of one kind, each in its own process.

    - `make`: a function that makes one, as `lambda: StreetEnv(..)`;
    - `count`: how many there are, 1 to 256.

    `reset(seed)` gives environment i the seed `seed + i`. `step(actions)` takes an action for each. Observations and
    rewards are arrays whose first place is the environment; `infos` is a list. An episode that ends is followed by the
    next one in the same step: the observation is its first one, and `infos[i]` has `final_observation` and
    `final_info`. `close()`, or leaving a `with` block, ends all processes. An exception in one of them is raised here
    and ends all.

    >>> import arterial.env
    >>> def make() -> arterial.env.StreetEnv:
    ...     scenario = {"version": 1, "rounds": 60, "ticks": 10, "cabinets": [{"pattern": 1}]}
    ...     movements = [{"name": f"M{it}", "phase": it, "volume": 300} for it in range(1, 9)]
    ...     return arterial.env.StreetEnv(scenario, {"cabinet": [{"number": 1, "movements": movements}]}, seconds=60)
    >>> with arterial.env.VectorEnv(make, 2) as both:
    ...     observations, infos = both.reset(seed=1)
    ...     observations, rewards, terminated, truncated, infos = both.step([[0], [1]])
    ...     observations.shape, rewards.shape
    ((2, 1, 3, 16), (2,))
    """

    def __init__(self, make: Callable[[], Any], count: int) -> None:
        if type(count) is not int or not 1 <= count <= MOST:
            raise Refused("", (f"count: expected a whole number from 1 to {MOST}, found {count!r}",))
        self.num_envs = count
        """How many environments there are."""
        self._pipes: list[Connection] = []
        self._processes: list[Any] = []
        context = multiprocessing.get_context("fork")
        try:
            for _ in range(count):
                here, there = context.Pipe()
                process = context.Process(target=serve, args=(make, there, [*self._pipes, here]), daemon=True)
                process.start()
                there.close()
                self._pipes.append(here)
                self._processes.append(process)
            spaces = self._answers()
        except BaseException:
            self.close()
            raise
        self.single_observation_space: Space = spaces[0][0]
        self.single_action_space: Space = spaces[0][1]

    def _answers(self) -> list[Any]:
        """Returns the answer of each process; an exception of one of them is raised, and ends all."""
        try:
            found = [pipe.recv() for pipe in self._pipes]
        except (EOFError, OSError):
            self.close()
            raise Error("a process of the environments has ended") from None
        except BaseException:
            self.close()
            raise
        for is_done, answer in found:
            if not is_done:
                self.close()
                raise answer
        return [answer for _, answer in found]

    def _ask(self, name: str, given: Sequence[Any]) -> list[Any]:
        """Returns the answers of all to a request."""
        if not self._pipes:
            raise Over("the environments are closed")
        try:
            for pipe, it in zip(self._pipes, given, strict=True):
                pipe.send((name, it))
        except (BrokenPipeError, OSError):
            self.close()
            raise Error("a process of the environments has ended") from None
        return self._answers()

    def reset(self, *, seed: int | None = None) -> tuple[Any, list[dict[str, Any]]]:
        """Begins an episode in each; returns the observations and infos."""
        seeds = [None if seed is None else seed + place for place in range(self.num_envs)]
        found = self._ask("reset", seeds)
        return numpy.stack([it[0] for it in found]), [it[1] for it in found]

    def step(self, actions: Any) -> tuple[Any, Any, Any, Any, list[dict[str, Any]]]:
        """Takes a step in each; returns observations, rewards, terminated, truncated and infos."""
        if len(actions) != self.num_envs:
            raise Refused("", (f"expected {self.num_envs} actions, found {len(actions)}",))
        found = self._ask("step", [numpy.asarray(it) for it in actions])
        parts = [numpy.stack([it[0] for it in found])]
        parts += [numpy.array([it[place] for it in found]) for place in (1, 2, 3)]
        return parts[0], parts[1], parts[2], parts[3], [it[4] for it in found]

    def close(self) -> None:
        """Ends all processes."""
        for pipe in self._pipes:
            pipe.close()
        for process in self._processes:
            process.join(SECONDS)
            if process.is_alive():
                process.kill()
                process.join()
        self._pipes, self._processes = [], []

    def __enter__(self) -> Self:
        return self

    def __exit__(self, *_: object) -> None:
        self.close()
