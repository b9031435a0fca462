"""What the tests share: devices at free ports of this machine, and calls of `arterial conform`."""

import json
import os
import pathlib
import subprocess
import sys
from concurrent.futures import ThreadPoolExecutor

import pytest

from ..street.conftest import PROGRAM, SECONDS, TOP, Running

MODEL, MUTANT = TOP / "model/program", pathlib.Path(__file__).with_name("mutant")
STEP = ("--as", "ntcip1202", "--speed", "step", "--ticks-per-message", 1, "--ports", 0)
LANES = min(4, os.cpu_count() or 1)
LONGEST = 1500
"""The seconds that one call may take on a busy machine."""


class Device(Running):
    """A street of one cabinet as the device. Its program is the independent model, or a mutant of it."""

    def __init__(self, *words, mutant=None, program=MODEL):
        words = (*(words or STEP), "--program", MUTANT if mutant else program)
        super().__init__(words, env=os.environ | {"ARTERIAL_MUTANT": mutant or ""})
        self.where = f"127.0.0.1:{self.port}"

    def __enter__(self):
        return self

    def __exit__(self, *_):
        self.socket.close()
        if self.street.poll() is None:
            self.end()


def conform(*words, **more):
    """Runs `arterial conform`, and returns the call that has ended."""
    command = [sys.executable, "-B", TOP / "tools/streettools", "conform", *map(str, words), "--program", PROGRAM]
    return subprocess.run(command, capture_output=True, text=True, timeout=LONGEST, **more)


def reported(where, *words, folder, speed="step"):
    """Returns the report of a call as JSON, and its exit status."""
    path = folder / "report.json"
    done = conform(where, "--speed", speed, "--patience", 5, "-o", path, *words)
    assert path.is_file(), done.stderr
    return json.loads(path.read_text()), done.returncode


def at_once(do, several):
    """Returns what a function returns for each of several things, some at a time."""
    with ThreadPoolExecutor(LANES) as lanes:
        return list(lanes.map(do, several))


@pytest.fixture
def device():
    """A device whose time advances with each message. Its program is the proved one, which takes half of the model's
    CPU time: what these tests show doesn't depend on who computes the ticks."""
    with Device(program=PROGRAM) as it:
        yield it


__all__ = ["MODEL", "PROGRAM", "SECONDS", "STEP", "TOP", "Device", "at_once", "conform", "device", "reported"]
