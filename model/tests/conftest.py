"""The repository's top and its vectors on the path of imports."""

import sys
from pathlib import Path

TOP = Path(__file__).resolve().parents[2]
sys.path[:0] = [str(TOP), str(TOP / "vectors"), str(TOP / "tools")]
sys.dont_write_bytecode = True
