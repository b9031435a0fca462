"""The command `./arterial cosim`: its commands, one module for each."""

import importlib
import pathlib

from ..shared.saying import say
from ..shared.status import Status

HERE = pathlib.Path(__file__).resolve().parent
WORDS = {
    "run": ("run_command", "SUMO drives the detectors, the cabinets drive SUMO's signals"),
    "map": ("map_command", "write which link of a network has which phase"),
    "compare": ("compare_command", "several plans over the same seeds, side by side"),
    "queues": ("queues.command", "traffic by volumes and queues, without SUMO"),
    "table": ("table_command", "trips, passages and queues of a run as CSV or Parquet"),
    "draw": ("pictures.command", "pictures of a run: arrivals, paths over bands, splits, queues"),
}
"""The commands: the module of each, which has `parser()` and `main(words) -> int`, and what it does in half a line."""

USAGE = "usage: arterial cosim COMMAND .. (COMMAND --help shows its options; docs/COSIM.md)"


def known() -> dict[str, str]:
    """Returns the commands that this checkout has, with what they do."""
    return {name: does for name, (module, does) in WORDS.items() if (HERE / f"{module.replace('.', '/')}.py").is_file()}


def usage() -> str:
    """Returns the command's help."""
    lines = [f"    {name:8} {does}" for name, does in known().items()]
    about = "Traffic in the loop: vehicles and persons meet the cabinets of a session."
    return "\n".join([USAGE, "", about, "", *lines])


def main(words: list[str]) -> int:
    """Runs the command that the first argument names, and returns the exit status."""
    if not words or words[0] in ("-h", "--help"):
        print(usage())
        return Status.DONE if words else Status.REFUSED
    if words[0] not in known():
        say("cosim", f"unknown command {words[0]!r}; choose from {', '.join(known())}")
        return Status.REFUSED
    module = importlib.import_module(f".{WORDS[words[0]][0]}", __package__)
    return module.main(words[1:])
