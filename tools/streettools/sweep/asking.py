"""Asks before a study that makes very many runs."""

import sys

from ..shared.fault import Fault

MANY = 100_000


def sure(count: int, yes: bool) -> None:
    """Returns if a large number of runs is wanted: on a terminal it asks, elsewhere `--yes` is required. Raises Fault
    if it isn't."""
    if count <= MANY or yes:
        return
    if not (sys.stdin and sys.stdin.isatty()):
        raise Fault(f"the study makes {count:,} runs: --yes allows more than {MANY:,}")
    print(f"sweep: the study makes {count:,} runs. Continue? [y/N] ", end="", file=sys.stderr, flush=True)
    if sys.stdin.readline().strip().lower() not in ("y", "yes"):
        raise Fault("nothing was run")
