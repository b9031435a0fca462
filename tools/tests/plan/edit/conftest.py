"""What the tests of the editor share: a sheet with comments, and an editor that runs as a process of its own."""

import importlib.util
import os
import signal
import subprocess

import pytest

from ...hearing import Heard
from ..conftest import SECONDS, TOP

collect_ignore_glob = (
    [] if all(map(importlib.util.find_spec, ("aiohttp", "tomlkit", "numpy"))) else ["test_*.py"]
)
"""Nothing is tested where a package is missing."""

SHEET = """\
# Elm Street, as it was counted in May.
title = "Elm Street"

[master]
clock = 07:00:00

# the station is here
[[intersection]]
name = "Elm & Oak"
travel = 20                 # measured twice

[intersection.coordination]
correction = "shortway"

[intersection.phase]
"1 5" = {name = "Elm left"}
2 = {name = "Elm eastbound"}

[intersection.pattern.1]    # the morning
cycle = 90
offset = 0                  # the master intersection
splits = {1 = 15, 2 = 30, 3 = 15, 4 = 30, 5 = 15, 6 = 30, 7 = 15, 8 = 30}

[[intersection]]
name = "Elm & Mill"
rings = ["1 2 | 4", "6 | -"]

[intersection.coordination]
correction = "shortway"

[intersection.pattern.1]
cycle = 90
offset = 40
splits = {1 = 15, 2 = 43, 4 = 32, 6 = 58}
"""
"""Two intersections: the standard rings, and a T whose ring 2 needs a placeholder phase (8)."""


@pytest.fixture
def sheet(tmp_path):
    """The sheet as a file."""
    path = tmp_path / "elm.toml"
    path.write_text(SHEET)
    return path


class Running(Heard):
    """An editor that runs."""

    def __init__(self, program, words):
        command = ["/usr/bin/python3", "-B", "-m", "streettools", "plan", "edit", "--program", program]
        self.process = subprocess.Popen(
            [*command, *map(str, words)], stderr=subprocess.PIPE, text=True, cwd=TOP,
            env={**os.environ, "PYTHONPATH": str(TOP / "tools")},
        )  # fmt: skip
        self.hear(self.process)

    def address(self):
        """Returns the address of the page."""
        return self.told(r"editor at (http://\S+)")[1]

    def end(self, number=signal.SIGINT):
        """Ends the editor, and returns its exit status."""
        if self.process.poll() is None:
            self.process.send_signal(number)
        return self.ended()

    def ended(self):
        """Waits until the editor ends, and returns its exit status."""
        status = self.process.wait(SECONDS)
        self.reader.join(SECONDS)
        self.process.stderr.close()
        return status


@pytest.fixture
def editor(program):
    """Starts editors, with the words given to each."""
    running = []

    def start(*words):
        running.append(Running(program, words))
        return running[-1]

    yield start
    for it in running:
        if it.process.poll() is None:
            it.end(signal.SIGKILL)
