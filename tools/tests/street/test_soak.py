"""The soak of a street (bench/soak) runs for some minutes of simulated time, over a change of the session."""

import re
import subprocess
import sys

import pytest

from .conftest import IS_MODEL, PROGRAM, TOP


@pytest.mark.skipif(IS_MODEL, reason="the model is too slow")
def test_a_street_answers_all_that_the_line_doesnt_lose_and_downloads_are_as_answered():
    words = ["--days", "0.01", "--speed", "40", "--cabinets", "4", "--session", "0.1", "--program", PROGRAM]
    command = [sys.executable, "-B", TOP / "bench/soak", *words]
    ran = subprocess.run(command, capture_output=True, text=True, timeout=280)
    assert (ran.returncode, ran.stdout.splitlines()[-1]) == (0, "all as wanted"), ran.stdout + ran.stderr
    done, sessions = (re.search(rf"(\d+) {it}", ran.stdout) for it in ("downloads done", "sessions"))
    assert int(done[1]) > 0 and int(sessions[1]) > 0
