"""The tools and the model on the path of imports."""

import sys
from pathlib import Path

TOP = Path(__file__).resolve().parents[3]
sys.path[:0] = [str(TOP), str(TOP / "tools")]
sys.dont_write_bytecode = True
