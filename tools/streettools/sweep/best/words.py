"""The options of the command `./arterial sweep best`."""

import argparse
from pathlib import Path

from ...shared.commandline import Parser, add_json, add_output, add_program, number
from ..words import add_workers

EXAMPLES = """\
examples:
  ./arterial sweep best scenarios/studies/best.toml -o best/            # search, with all processors
  ./arterial sweep best scenarios/studies/best.toml -o best/ --resume   # continue an interrupted search

The folder gets tries.csv (all runs of the search), best.json and best.toml (the best plan as a scenario and as a timing
sheet), best.svg (the best plan and the present one), comparison.txt and comparison.json (both plans with seeds that the
search didn't use). docs/SWEEP.md explains the table [best] of a study."""


def parser() -> argparse.ArgumentParser:
    """Returns the reader of the options."""
    words = Parser(
        "sweep best",
        description="Searches a study for the plan with the best goal, and compares it with the present plan.",
        epilog=EXAMPLES,
    )
    words.add_argument("study", help="the study's file, in TOML, with the table [best]; - is standard input")
    add_output(words, "the folder for all results", type=Path, metavar="FOLDER", required=True)
    before = words.add_mutually_exclusive_group()
    before.add_argument(
        "--resume", action="store_true", help="continue an earlier search: keep the runs that it has done"
    )
    before.add_argument("--anew", action="store_true", help="discard the runs of an earlier search")
    words.add_argument("--keep", action="store_true", help="keep the file of the runs when the search is done")
    words.add_argument("--check", action="store_true", help="check each trace")
    add_json(words)
    words.add_argument(
        "--timeout", type=number(1, 86_400), default=600, metavar="S", help="time limit of a run (default: 600)"
    )
    add_program(words)
    add_workers(words)
    return words
