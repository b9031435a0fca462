"""What the tests share: signals of fixed times in place of a session, small streets, the program for whole runs.

Where no program is named the built one is taken if it has `live`, else the model, which has the same form.
"""

import os
import pathlib
import subprocess
import sys

import pytest

TOP = pathlib.Path(__file__).resolve().parents[3]
sys.dont_write_bytecode = True
sys.path.insert(0, str(TOP / "tools"))

from streettools.cosim.queues.demand import demand_of  # noqa: E402
from streettools.cosim.queues.signals import Signals  # noqa: E402
from streettools.cosim.queues.street import Steps, Street  # noqa: E402
from streettools.cosim.queues.volumes import Flow, Onward, Saturation, Volumes  # noqa: E402


class FixedTime:
    """Cabinets whose phase 2 is green from `offset` on for `green` seconds in each cycle, then yellow for 4 s."""

    def __init__(self, cycle: int, green: int, offsets: tuple[int, ...] = (0,)) -> None:
        self.cycle, self.green, self.offsets = cycle, green, offsets
        self.shown = [self.frame(number, 0) for number in range(1, len(offsets) + 1)]
        self.tick, self.asked = 0, []

    def letter(self, number: int, tick: int) -> str:
        """Returns what phase 2 of a cabinet shows after a tick."""
        at = (tick - 10 * self.offsets[number - 1]) % (10 * self.cycle)
        return "G" if at < 10 * self.green else "Y" if at < 10 * self.green + 40 else "R"

    def frame(self, number: int, tick: int) -> bytes:
        """Returns the frame line of a cabinet at a tick."""
        return f"F {number} {tick} R{self.letter(number, tick)}{'R' * 14} {'D' * 16} F 0 0 0".encode()

    def step(self, inputs: list[bytes], count: int) -> list[bytes]:
        """Takes inputs and ticks; returns the frames that differ from those before."""
        self.asked.append((self.tick, list(inputs)))
        lines = []
        for tick in range(self.tick + 1, self.tick + count + 1):
            for number in range(1, len(self.offsets) + 1):
                if self.letter(number, tick) != self.letter(number, tick - 1):
                    lines.append(self.frame(number, tick))
        self.tick += count
        return lines


def flow(volume: float, **more) -> Flow:
    """Returns a movement EBT with phase 2 of cabinet 1."""
    return Flow(**{"cabinet": 1, "name": "EBT", "approach": "EB", "phase": 2, "volume": volume} | more)


def ran(flows: list[Flow], cabinets: FixedTime, seconds: int, seed: int = 1, step: int = 10) -> tuple[Street, Signals]:
    """Returns a street of fixed times that has run, and its signals."""
    volumes = Volumes("", tuple(flows))
    steps = Steps(seconds * 10 // step, step)
    street, signals = Street(volumes, demand_of(volumes, seed, 0.0, seconds), steps), Signals(len(cabinets.offsets))
    street.run(cabinets, signals, lambda step: None)
    signals.close(seconds)
    return street, signals


def has_live(program: pathlib.Path) -> bool:
    """Tells whether a program has the word `live`."""
    text = b'{"version":1,"rounds":1,"ticks":1,"cabinets":[{}]}\n'
    return program.is_file() and subprocess.run([program, "live"], input=text, capture_output=True).returncode == 0


def program_here() -> pathlib.Path:
    """Returns the program that the tests are about."""
    named = pathlib.Path(os.environ.get("ARTERIAL_PROGRAM", TOP / "crates/arterial/out/arterial"))
    return named if has_live(named) else TOP / "model/program"


@pytest.fixture(scope="session")
def program() -> pathlib.Path:
    """The program."""
    return program_here()


__all__ = ["FixedTime", "Flow", "Onward", "Saturation", "Volumes", "flow", "program", "ran"]
