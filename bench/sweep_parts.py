"""Adds up, in a worker of a sweep, the processor time of the parts of its runs. bench/sweep puts it beside the tools
that a worker is given, and says where it writes: a line for each run, with the seconds of the program's processes, of
reading and measures, of the scenario, and of all that the worker itself does for the run."""

import functools
import json
import os
import resource
import time
from pathlib import Path

from .building import Built
from .one_run import Runner

HERE = FOLDER  # noqa: F821: bench/sweep puts the folder's name here


def programs() -> float:
    """Returns the processor seconds of the program's processes, the only ones that a worker starts."""
    used = resource.getrusage(resource.RUSAGE_CHILDREN)
    return used.ru_utime + used.ru_stime


def watch() -> None:
    """Lets a worker add up what its runs take."""
    seconds = {"scenario": 0.0, "measures": 0.0}

    def timed(kind: type, name: str, part: str) -> None:
        does = getattr(kind, name)

        @functools.wraps(does)
        def timing(*words):
            begun = time.thread_time()
            try:
                return does(*words)
            finally:
                seconds[part] += time.thread_time() - begun

        setattr(kind, name, timing)

    timed(Runner, "made", "scenario")
    timed(Built, "name", "scenario")
    timed(Runner, "measured", "measures")
    row, place = Runner.row, Path(HERE) / str(os.getpid())
    file = open(place, "a", buffering=1)

    def run(self, variant):
        before = programs(), seconds["measures"], seconds["scenario"], time.thread_time()
        found = row(self, variant)
        after = programs(), seconds["measures"], seconds["scenario"], time.thread_time()
        file.write(json.dumps([b - a for a, b in zip(before, after)]) + "\n")
        return found

    Runner.row = run
