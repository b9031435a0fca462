"""The independent model of the whole program (model/README.md): where Python finds it."""

import pathlib
import sys

HERE = pathlib.Path(__file__).resolve()


def has_model() -> bool:
    """Tells whether the model is there, and lets it be imported: it is at the top of a checkout, and next to these
    tools if they are installed."""
    top = next((it for it in (HERE.parents[3], HERE.parents[2]) if (it / "model/run.py").is_file()), None)
    if top is not None and str(top) not in sys.path:
        sys.path.insert(0, str(top))
    return top is not None
