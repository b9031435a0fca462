"""What the tests of the package share: the program, small scripts that stand for it, and which processes still run.

Where no program is named the built one is taken if it has `live`, else the model, which has the same form.
"""

import os
import pathlib
import subprocess
import sys

import pytest

from ..shared.conftest import is_gone

TOP = pathlib.Path(__file__).resolve().parents[3]
sys.dont_write_bytecode = True
sys.path.insert(0, str(TOP / "tools"))

ONE = {"version": 1, "rounds": 60, "ticks": 10, "cabinets": [{}]}
"""One cabinet for a minute."""
FRAME = "F 1 0 RRRRRRRRRRRRRRRR DDDDDDDDDDDDDDDD S 0 0 0"
OPENING = f"read line\nprintf '%s\\n' '{FRAME}' 'R 1' .\n"
"""What a script does to open a session."""


def has_live(program: pathlib.Path) -> bool:
    """Tells whether a program has the word `live`."""
    text = b'{"version":1,"rounds":1,"ticks":1,"cabinets":[{}]}\n'
    return program.is_file() and subprocess.run([program, "live"], input=text, capture_output=True).returncode == 0


def program_here() -> pathlib.Path:
    """Returns the program that the tests are about."""
    named = pathlib.Path(os.environ.get("ARTERIAL_PROGRAM", TOP / "crates/arterial/out/arterial"))
    return named if has_live(named) else TOP / "model/program"


@pytest.fixture(scope="session")
def program() -> pathlib.Path:
    """The program."""
    return program_here()


@pytest.fixture(autouse=True)
def named(program, monkeypatch):
    """Lets the package take this program."""
    monkeypatch.setenv("ARTERIAL_PROGRAM", str(program))


@pytest.fixture
def script(tmp_path, monkeypatch):
    """Writes a program for the package, and says afterwards that none of it runs any longer."""
    path, pids = tmp_path / "program", tmp_path / "pids"

    def done(text: str) -> pathlib.Path:
        path.write_text(f"#!/bin/bash\necho $$ >>{pids}\n{text}")
        path.chmod(0o755)
        monkeypatch.setenv("ARTERIAL_PROGRAM", str(path))
        return path

    yield done
    assert all(map(is_gone, map(int, pids.read_text().split() if pids.exists() else ())))
