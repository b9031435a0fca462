"""The bench as a Python package: run scenarios, check traces, drive cabinets live, read plans, train learners.

>>> import arterial
>>> trace = arterial.run({"version": 1, "rounds": 60, "ticks": 10, "cabinets": [{"base": "max8"}]})
>>> trace.greens()[["phase", "start_s", "green_s", "ending"]].values.tolist()[:2]
[[2, 6.0, 40.0, 'maximum'], [6, 6.0, 40.0, 'maximum']]

What the program answers is proved if `arterial.program()` says so; this package isn't. docs/PYTHON.md shows how to use
it. `arterial.env` has the environment for learners, which is imported when it is first used.
"""

from typing import TYPE_CHECKING, Any

from streettools.shared.version import VERSION as __version__

from .errors import (
    Busy,
    Error,
    Late,
    Missing,
    NoCabinet,
    NoProgram,
    NotATrace,
    Over,
    ProgramDied,
    Refused,
)
from .judging import Judgement, judge
from .lives import AsyncStreet, Outcome, Step, Street, live, live_async
from .pictures import Picture
from .plans import Band, Bands, Finding, Plan
from .programs import Program, Unproved, program
from .runs import Verdict, check, run
from .scenarios import (
    Cabinet,
    Cancel,
    Entry,
    LinkFault,
    Load,
    Master,
    Message,
    Pedestrian,
    Preempt,
    Request,
    Scenario,
    Vehicle,
)
from .traces import Frame, Trace

if TYPE_CHECKING:
    from . import env as env

__all__ = [
    "AsyncStreet", "Band", "Bands", "Busy", "Cabinet", "Cancel", "Entry", "Error", "Finding", "Frame", "Judgement",
    "Late", "LinkFault", "Load", "Master", "Message", "Missing", "NoCabinet", "NoProgram", "NotATrace", "Outcome",
    "Over", "Pedestrian", "Picture", "Plan", "Preempt", "Program", "ProgramDied", "Refused", "Request", "Scenario",
    "Step", "Street", "Trace", "Unproved", "Vehicle", "Verdict", "__version__", "check", "env", "judge", "live",
    "live_async", "program", "run",
]  # fmt: skip


def __getattr__(name: str) -> Any:
    """Imports `arterial.env` when it is first used: numpy and the model of queues take a while."""
    if name == "env":
        import importlib

        return importlib.import_module("arterial.env")
    raise AttributeError(f"module 'arterial' has no attribute {name!r}")
