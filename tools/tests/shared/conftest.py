"""What the tests share: which processes still run."""

import pathlib
import time

SECONDS = 10.0
"""How long a process that was killed may take until it is gone."""


def still_runs(group: int) -> bool:
    """Tells whether a process of a group runs; one that has ended and that nobody waited for doesn't."""
    for path in pathlib.Path("/proc").glob("[0-9]*/stat"):
        try:
            state, _, its = path.read_text().rpartition(")")[2].split()[:3]
        except OSError:
            continue
        if int(its) == group and state != "Z":
            return True
    return False


def is_gone(group: int) -> bool:
    """Tells whether no process of a group runs any longer. Who is no parent of a process can't wait for its end, so it
    is looked for until the time is over."""
    end = time.monotonic() + SECONDS
    while still_runs(group):
        if time.monotonic() > end:
            return False
        time.sleep(0.01)
    return True
