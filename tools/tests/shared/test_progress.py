"""What a terminal shows while something takes long; elsewhere nothing is shown."""

import io
import os
import pathlib
import pty
import subprocess
import sys
import time

import pytest
from streettools.shared import progress

TOP = pathlib.Path(__file__).resolve().parents[3]


class Terminal(io.StringIO):
    """Standard error of a terminal, whose text is kept."""

    def isatty(self) -> bool:
        """A terminal it is."""
        return True


def test_a_terminal_shows_the_count_from_the_start_and_that_time_passes(monkeypatch):
    """The bar is there before anything is done, and is written again within the second."""
    pytest.importorskip("tqdm")
    shown = Terminal()
    monkeypatch.setattr(sys, "stderr", shown)
    with progress.counted(4, "run") as bar:
        assert "0/4" in shown.getvalue()
        before = len(shown.getvalue())
        time.sleep(1.5)
        assert len(shown.getvalue()) > before
        bar.update(1)
        bar.refresh()
        assert "1/4" in shown.getvalue()


def test_a_file_or_a_pipe_gets_no_bar(monkeypatch):
    """Standard error that isn't a terminal stays empty."""
    shown = io.StringIO()
    monkeypatch.setattr(sys, "stderr", shown)
    with progress.counted(4, "run") as bar:
        assert bar is None
    assert shown.getvalue() == ""


COMPARISON = """
volumes = "{top}/scenarios/street.volumes.toml"
seeds = 1
seconds = 60
[[plan]]
name = "one"
scenario = "{top}/scenarios/street.json"
[[plan]]
name = "two"
scenario = "{top}/scenarios/street.json"
"""


@pytest.mark.parametrize("words", [("cosim", "compare"), ("plan", "check")])
def test_long_commands_show_a_bar_in_a_terminal(words, tmp_path):
    """A real terminal, of two runs, and of the bands of a sheet with one pattern."""
    pytest.importorskip("tqdm")
    file = tmp_path / "street.compare.toml"
    file.write_text(COMPARISON.format(top=TOP))
    path = file if words[0] == "cosim" else TOP / "scenarios/tutorial/river-road.toml"
    program = os.environ.get("ARTERIAL_PROGRAM", TOP / "model/program")
    here, there = pty.openpty()
    tool = [sys.executable, "-m", "streettools", *words, path, "--program", program]
    system = {**os.environ, "PYTHONPATH": f"{TOP / 'tools'}:{TOP}"}
    ran = subprocess.Popen(tool, stdout=subprocess.DEVNULL, stderr=there, env=system)
    os.close(there)
    text = b""
    try:
        while piece := os.read(here, 4096):
            text += piece
    except OSError:
        pass  # the terminal's other end is closed
    finally:
        os.close(here)
    assert ran.wait(100) == 0, text
    assert b"0/2" in text
