"""A copy of the launcher over small crates, with a command that stands for the kit's."""

import os
import pathlib
import shutil
import signal
import subprocess
import time

import pytest

HERE = pathlib.Path(__file__).resolve().parent
TOP = HERE.parents[2]
CRATES = {
    "sig_types": "arrayvec",
    "io_edge": "sig_types",
    "laws": "sig_types",
    "station": "io_edge",
    "arterial": "io_edge station",
}
"""Crates and what they stand on; the program does not stand on the laws."""

PROVED = ["sig_types", "io_edge", "station", "arterial"]
SECONDS = 60

BUILT = (7, "words run --workers 2\none\ntwo\n")
"""The status and the output of the program that the stand-in builds."""


class Tried:
    """The copy, in a folder whose name has a blank."""

    def __init__(self, folder):
        self.top, self.told = folder / "a copy", folder / "told"
        self.told.mkdir()
        self.top.mkdir()
        for name in ("arterial", "HANDLES"):
            shutil.copy(TOP / name, self.top / name)
        shutil.copytree(TOP / "tools", self.top / "tools", ignore=shutil.ignore_patterns("tests", "__pycache__"))
        lines = [f"{name}: {below}\n" for name, below in CRATES.items()]
        (self.top / "crates.txt").write_text("# crate: what it stands on\n" + "".join(lines))
        for name in CRATES:
            (self.top / f"crates/{name}/src").mkdir(parents=True)
            (self.top / f"crates/{name}/src/lib.rt").write_text("// nothing\n")
        (self.top / "crates/arterial/stdin").write_text("")
        (self.top / "crates/arterial/src/main.rt").write_text("fn main() {}\n")
        (self.top / "crates/arterial/src/reporting.rt").write_text(
            'const USAGE: &str = "usage: arterial run | check\\n";\n'
        )
        (self.top / "crates/station/src/help.rt").write_text(
            'pub const HELP: &str = "\\\nthe help\n\n  arterial run [--workers N]\n      Runs.\n  arterial check\n    '
            '  Checks.\n\nThe end.\n";\n'
            'pub const VERSION: &str = "arterial 0\\n";\n'
        )
        self.program = self.top / "crates/arterial/out/arterial"
        self.as_whom = {}

    def started(self, *words, path=str(HERE), **names):
        """Starts the launcher with these words, in a group of its own as a terminal has one, with this folder before
        the system's."""
        names = {"PATH": f"{path}:/usr/bin:/bin", "TRIED": str(self.told), "PAUSE": "0", "FAILS": "", **names}
        pipe = subprocess.PIPE
        return subprocess.Popen(
            [self.top / "arterial", *words], stdin=pipe, stdout=pipe, stderr=pipe, env=names, cwd="/", text=True,
            start_new_session=True, preexec_fn=heeding, **self.as_whom,
        )  # fmt: skip

    def ran(self, *words, given="one\ntwo\n", **names):
        """Returns what a call of the launcher answers: its status, and both outputs."""
        return ended(self.started(*words, **names), given)

    def calls(self):
        """Returns the calls of the kit's command so far, and the crates that were proved, in turn."""
        files = (self.told / "calls", self.told / "proved")
        return [file.read_text().splitlines() if file.exists() else [] for file in files]


def heeding():
    """Lets an interrupt count, also where this test runs in the background."""
    signal.signal(signal.SIGINT, signal.SIG_DFL)


def ended(running, given="one\ntwo\n"):
    """Returns what a call that was started answers, which is given two lines as its input."""
    written, said = running.communicate(given, timeout=SECONDS)
    return running.returncode, written, said


def wait_for(holds):
    """Waits until a condition holds."""
    end = time.monotonic() + SECONDS
    while not holds():
        assert time.monotonic() < end
        time.sleep(0.02)


def interrupt(running):
    """Does what Ctrl-C does: each process of the terminal's group gets the signal."""
    os.killpg(running.pid, signal.SIGINT)


def end_after(running, pause):
    """Lets a call that reads nothing run for a while, then interrupts it until it ends."""
    running.stdin.close()
    running.stdin = None
    waits = pause
    while True:
        try:
            running.wait(waits)
            break
        except subprocess.TimeoutExpired:
            interrupt(running)
            waits = 0.3
    assert running.returncode in (130, -2)


@pytest.fixture
def tried(tmp_path):
    """A copy in which nothing is proved."""
    return Tried(tmp_path)


@pytest.fixture
def proved(tried):
    """A copy in which the program is proved."""
    status, written, said = tried.ran("prove")
    assert (status, written) == (0, "") and tried.program.exists(), said
    return tried
