"""The Python of this repository passes its linter and its checker of types."""

import os
import pathlib
import shutil
import subprocess

import pytest

TOP = pathlib.Path(__file__).resolve().parents[2]
SECONDS = 900


def ran(*words: str, folder: pathlib.Path) -> tuple[int, str]:
    """Returns the status and the output of a command that must be there."""
    if shutil.which(words[0]) is None:
        pytest.skip(f"{words[0]} is missing: apt-get install -y {words[0]}")
    done = subprocess.run(words, cwd=folder, capture_output=True, text=True, timeout=SECONDS)
    return done.returncode, done.stdout + done.stderr


def test_the_linter_finds_nothing():
    assert ran("flake8", "tools", folder=TOP) == (0, "")


def test_the_types_agree():
    """tools/pyproject.toml says what is checked strictly, and which modules are not checked yet. The cache is outside
    of the checkout; a call without one takes 20 s."""
    cache = pathlib.Path(os.environ.get("XDG_CACHE_HOME") or "~/.cache").expanduser() / "arterial" / "mypy"
    status, said = ran("mypy", "--config-file", "pyproject.toml", "--cache-dir", str(cache), folder=TOP / "tools")
    assert status == 0, said
