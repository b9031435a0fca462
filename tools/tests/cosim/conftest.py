"""What the tests share: a program that has `live`, the command, the streets of scenarios/sumo, networks made on the
spot.

Where no program is named the built one is taken if it has `live`, else the model, which has the same form.
"""

import contextlib
import io
import os
import pathlib
import shutil
import subprocess
import sys
from collections.abc import Callable
from typing import NamedTuple

import pytest

TOP = pathlib.Path(__file__).resolve().parents[3]
sys.dont_write_bytecode = True
sys.path.insert(0, str(TOP / "tools"))

from streettools import words as tools  # noqa: E402

SECONDS = 600
"""How long anything may take, on a machine that is busy with other things."""
STREET, TEE = TOP / "scenarios/sumo/street", TOP / "scenarios/sumo/tee"
ONE = b'{"version":1,"rounds":1,"ticks":1,"cabinets":[{}]}\n'


def has_live(program: pathlib.Path) -> bool:
    """Tells whether a program has the word `live`."""
    return program.is_file() and subprocess.run([program, "live"], input=ONE, capture_output=True).returncode == 0


def program_here() -> pathlib.Path:
    """Returns the program that the tests are about."""
    named = pathlib.Path(os.environ.get("ARTERIAL_PROGRAM", TOP / "crates/arterial/out/arterial"))
    return named if has_live(named) else TOP / "model/program"


PROGRAM = program_here()


def has_sumo() -> bool:
    """Tells whether SUMO and its module for Python are there."""
    found = subprocess.run([sys.executable, "-c", "import libsumo"], capture_output=True).returncode == 0
    return found and shutil.which("netconvert") is not None


needs_sumo = pytest.mark.skipif(not has_sumo(), reason="SUMO is missing: apt-get install -y sumo sumo-tools")


class Ran(NamedTuple):
    """What the command came to: its status, what it wrote, the lines that it said (those of speed left out)."""

    status: int
    out: str
    said: list[str]


def cosim(*words: object, raw: bool = False) -> Ran:
    """Runs `arterial cosim`; `raw` keeps all lines that it said."""
    command = [sys.executable, "-B", TOP / "tools/streettools", "cosim", *map(str, words)]
    own = os.environ | {"ARTERIAL_PROGRAM": str(PROGRAM)}
    ran = subprocess.run(command, capture_output=True, text=True, cwd=TOP, timeout=SECONDS, env=own)
    return Ran(ran.returncode, ran.stdout, [line for line in ran.stderr.splitlines() if raw or not is_of_speed(line)])


def is_of_speed(line: str) -> bool:
    """Tells whether a line is of the speed of a run, its step or its saturation flow."""
    return any(it in line for it in ("simulated seconds in one", "steps of 1 s lower", "saturation flow"))


def here(*words: object) -> Ran:
    """Runs `arterial cosim` within the tests' own process: for what is refused before SUMO starts."""
    out, err = io.StringIO(), io.StringIO()
    with contextlib.redirect_stdout(out), contextlib.redirect_stderr(err):
        status = tools.run(["cosim", *map(str, words), "--program", str(PROGRAM)])
    return Ran(status, out.getvalue(), err.getvalue().splitlines())


@pytest.fixture
def tee(tmp_path: pathlib.Path) -> pathlib.Path:
    """Returns a folder with the files of the T-intersection, which a test may change."""
    folder = tmp_path / "tee"
    shutil.copytree(TEE, folder)
    return folder


def run_tee(folder: pathlib.Path, *more: object, by: Callable[..., Ran] = cosim) -> Ran:
    """Runs the T-intersection in a folder for 60 seconds; further words count more."""
    words = ["--sumo", folder / "tee.sumocfg", "--map", folder / "tee.map.toml", "--scenario", folder / "tee.json"]
    return by("run", *words, "--seconds", 60, "--step", 1, "-o", folder / "out", *more)


def change(path: pathlib.Path, old: str, new: str) -> None:
    """Changes a text in a file, which has it once at least."""
    text = path.read_text()
    assert old in text
    path.write_text(text.replace(old, new, 1))
