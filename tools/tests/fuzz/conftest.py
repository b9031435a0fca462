"""What the fuzzers share: where the tools are, and how many cases are tried."""

import pathlib
import sys

import pytest

TOP = pathlib.Path(__file__).resolve().parents[3]
sys.dont_write_bytecode = True
sys.path.insert(0, str(TOP / "tools"))

pytest.importorskip("hypothesis")
