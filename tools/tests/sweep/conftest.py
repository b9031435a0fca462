"""What the tests share: the program, a small study in a folder of its own, the command."""

import os
import pathlib
import subprocess
import sys
import tomllib
from collections.abc import Iterator

import pytest

TOP = pathlib.Path(__file__).resolve().parents[3]
PROGRAM = pathlib.Path(os.environ.get("ARTERIAL_PROGRAM", TOP / "crates/arterial/out/arterial"))
SECONDS = 1200
"""How long anything may take, on a machine that is busy with other things."""
sys.path.insert(0, str(TOP / "tools"))
sys.dont_write_bytecode = True

from streettools.sweep import table  # noqa: E402
from streettools.sweep.prepared import prepared  # noqa: E402

SCENARIO = '{"version":1,"rounds":20,"ticks":10,"cabinets":[{"pattern":1},{"pattern":1}]}'
STUDY = """\
title = "Two cabinets, 20 s"
scenario = "two.json"
seeds = 5
measures = [
    "services", "green_mean", "wait_mean each cabinet", "on_offset_share", "band_outbound", "band_seen_outbound"
]
[[vary]]
name = "offset"
cell = ["pattern", 1, 3]
cabinet = 2
values = [0, 10, 20, 95]
[[vary]]
name = "mode"
cell = ["unit", 1]
values = [2, 3, 4]
[traffic]
[[traffic.flow]]
cabinet = [1, 2]
phase = [4, 8]
vehicles = 400
[street]
travel = [10]
"""
"""4 offsets, 3 modes, 5 seeds: 60 variants. The offset of 95 s is beyond the cycle of 90 s, so 15 of them are
refused."""


def environment() -> dict[str, str]:
    """Returns the environment in which the command runs."""
    return os.environ | {
        "PYTHONPATH": str(TOP / "tools"),
        "ARTERIAL_PROGRAM": str(PROGRAM),
        "PYTHONDONTWRITEBYTECODE": "1",
    }


def begun(folder: pathlib.Path, *words: object) -> subprocess.Popen:
    """Starts the command in a folder."""
    command = ["/usr/bin/python3", "-B", "-m", "streettools", "sweep", *map(str, words)]
    return subprocess.Popen(command, cwd=folder, env=environment(), stdin=subprocess.DEVNULL, stdout=subprocess.PIPE,
                            stderr=subprocess.PIPE, text=True)  # fmt: skip


def ended(command: subprocess.Popen) -> tuple[int, str, str]:
    """Waits for the command, and returns its status, its output and what it said."""
    try:
        out, said = command.communicate(timeout=SECONDS)
    finally:
        command.kill()
    return command.returncode, out, said


def sweep(folder: pathlib.Path, *words: object) -> tuple[int, str, str]:
    """Runs the command in a folder."""
    return ended(begun(folder, *words))


def rows_done(table: pathlib.Path) -> int:
    """Returns how many runs stand in the file beside a table."""
    file = table.with_name(table.name + ".runs")
    return max(0, file.read_bytes().count(b"\n") - 1) if file.exists() else 0


@pytest.fixture(scope="session")
def program() -> pathlib.Path:
    """The built program; a test is skipped where there is none."""
    if not PROGRAM.is_file():
        pytest.skip(f"no program at {PROGRAM}")
    return PROGRAM


@pytest.fixture
def folder(tmp_path, program) -> pathlib.Path:
    """A folder with the study of 60 variants."""
    (tmp_path / "two.json").write_text(SCENARIO)
    (tmp_path / "study.toml").write_text(STUDY)
    return tmp_path


class Held:
    """A program that stops in the middle of a sweep: from its tenth call on it waits, until it is let go."""

    TEXT = """\
#!/bin/sh
cd "{folder}" || exit 70
echo >>calls
while [ -e hold ] && [ "$(wc -l <calls)" -gt 10 ]; do sleep 0.05; done
exec "{program}" "$@"
"""

    def __init__(self, folder: pathlib.Path, program: pathlib.Path) -> None:
        self.path, self.hold = folder / "held", folder / "hold"
        self.hold.touch()
        self.path.write_text(self.TEXT.format(folder=folder, program=program))
        self.path.chmod(0o700)

    def let_go(self) -> None:
        """Lets all calls go on."""
        self.hold.unlink(missing_ok=True)


@pytest.fixture
def held(folder, program) -> Iterator[Held]:
    """A program that waits from its tenth call on; it is let go at the end in any case."""
    made = Held(folder, program)
    yield made
    made.let_go()


@pytest.fixture(scope="session")
def reference(tmp_path_factory, program) -> str:
    """The table of the study, run after run in this process, without an engine."""
    ready = prepared(tomllib.loads(STUDY), {"two.json": SCENARIO.encode()}.__getitem__, program)
    runner, out = ready.runner(False, SECONDS), tmp_path_factory.mktemp("reference") / "out.csv"
    lines = (ready.line(index, runner.row(ready.variants.at(index))) for index in range(ready.variants.count()))
    table.write(out, ready.names(), lines)
    return out.read_text()
