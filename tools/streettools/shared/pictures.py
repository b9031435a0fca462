"""What every picture shares, whichever tool draws it: two colours, the style, and how a figure is written."""

import pathlib
import sys
from typing import Any

import matplotlib

if "matplotlib.pyplot" not in sys.modules:
    # a reader's own program, as a notebook, keeps its own way to show figures
    matplotlib.use("Agg")
from matplotlib import pyplot as plt  # noqa: E402

from . import files  # noqa: E402

__all__ = ["FAINT", "INK", "STYLE", "UNDATED", "plt", "save"]

INK, FAINT = "#22262a", "#8a9299"
STYLE = {
    "svg.fonttype": "none",
    "svg.hashsalt": "arterial",
    "font.family": "sans-serif",
    "font.sans-serif": ["DejaVu Sans", "Arial", "Helvetica"],
    "font.size": 9,
    "axes.spines.top": False,
    "axes.spines.right": False,
    "axes.edgecolor": FAINT,
    "savefig.dpi": 150,
}
UNDATED: dict[str, dict[str, Any]] = {".svg": {"Date": None}, ".pdf": {"CreationDate": None}}


def save(drawn: Any, path: str) -> None:
    """Writes a figure by the suffix of its file; the same figure gives the same bytes."""
    suffix = pathlib.Path(path).suffix
    maker = {"Software": "arterial"} if suffix == ".png" else {"Creator": "arterial"}
    with files.whole(path) as name:
        drawn.savefig(name, metadata=maker | UNDATED.get(suffix, {}))
    plt.close(drawn)
