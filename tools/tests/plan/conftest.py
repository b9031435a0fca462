"""What the tests share: the built program, the repository's files, and the command as it is called."""

import importlib.util
import os
import pathlib
import subprocess
import sys

import pytest

TOP = pathlib.Path(__file__).resolve().parents[3]
sys.dont_write_bytecode = True
sys.path[:0] = [str(TOP / "tools"), str(TOP / "vectors")]
sys.path.append(str(TOP))

collect_ignore_glob = (
    [] if all(map(importlib.util.find_spec, ("tomli_w", "openpyxl", "numpy", "tqdm", "matplotlib"))) else ["test_*.py"]
)
"""Nothing is tested where a package is missing."""

PROGRAM = pathlib.Path(os.environ.get("ARTERIAL_PROGRAM", TOP / "crates/arterial/out/arterial"))
SECONDS = 60
"""How long one run may take."""


@pytest.fixture
def program():
    """The built program; a test is skipped where there is none."""
    if not PROGRAM.is_file():
        pytest.skip(f"no program at {PROGRAM}")
    return PROGRAM


def said(program: pathlib.Path, text: bytes) -> str:
    """Returns what the program says of a scenario on standard error; the empty text where it takes it."""
    ran = subprocess.run(
        [program, "run"], input=text, stdout=subprocess.DEVNULL, stderr=subprocess.PIPE, timeout=SECONDS
    )
    return ran.stderr.decode().strip()


def plan(*words: object, given: bytes | None = None) -> subprocess.CompletedProcess:
    """Runs `./arterial plan` with some words, as a process of its own."""
    return subprocess.run(
        ["/usr/bin/python3", "-B", "-m", "streettools", "plan", *map(str, words)], input=given, capture_output=True,
        timeout=SECONDS,
        env={**os.environ, "PYTHONPATH": str(TOP / "tools")},
    )  # fmt: skip
