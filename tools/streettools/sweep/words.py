"""The options of the command `./arterial sweep`."""

import argparse
from pathlib import Path

from ..shared.commandline import Parser, add_json, add_output, add_program, add_renamed, number

EXAMPLES = """\
examples:
  ./arterial sweep offsets.toml -o offsets.csv              # every variant of the study, on all processors
  ./arterial sweep offsets.toml -o offsets.csv --resume     # continue an interrupted sweep
  ./arterial sweep offsets.toml --count                     # the number of runs; nothing is run
  ./arterial sweep offsets.toml --show 17 > scenario.json   # the scenario of run 17 of the table
  ./arterial sweep offsets.toml -o offsets.csv --slurm --interface eth0 --workers 200
  ./arterial sweep best --help                              # look for the best plan of a study
  ./arterial sweep measures                                 # the measures that are built in
  ./arterial sweep measure --help                           # measures of a trace that you have
  ./arterial sweep draw --help                              # pictures of a table

docs/SWEEP.md explains studies."""


def parser() -> argparse.ArgumentParser:
    """Returns the reader of the options."""
    words = Parser(
        "sweep",
        description="Runs many variants of a scenario, and writes their measures to one table.",
        epilog=EXAMPLES,
    )
    words.add_argument("study", help="the study's file, in TOML; - is standard input")
    does = words.add_mutually_exclusive_group(required=True)
    add_output(does, "the table to write: .csv, or .parquet if Python's pyarrow is installed", metavar="TABLE")
    does.add_argument("--count", action="store_true", help="print the number of runs of the study")
    does.add_argument("--show", type=number(1, 10**15), metavar="RUN", help="print the scenario of a run")
    before = words.add_mutually_exclusive_group()
    before.add_argument(
        "--resume", action="store_true", help="continue an earlier sweep: keep the runs that it has done"
    )
    before.add_argument("--anew", action="store_true", help="discard the runs of an earlier sweep")
    words.add_argument(
        "--keep", action="store_true", help="keep the file of the runs next to the table when all are done"
    )
    words.add_argument("--check", action="store_true", help="check each trace")
    add_json(words)
    words.add_argument("--yes", action="store_true", help="don't ask before more than 100,000 runs")
    add_renamed(
        words, "--seconds", "--timeout", type=number(1, 86_400), default=600, metavar="S",
        help="time limit of a run (default: 600)",
    )  # fmt: skip
    add_program(words)
    add_workers(words)
    return words


def add_workers(words: argparse.ArgumentParser) -> None:
    """Adds the options that name the workers."""
    where = words.add_argument_group("where the runs are done (default: in processes on this machine)")
    where.add_argument(
        "--workers", type=number(1, 4096), metavar="N", help="number of workers (default: the number of processors)"
    )
    where.add_argument(
        "--memory", type=number(200, 10**7), metavar="MIB",
        help="memory of each worker (default: an equal share of the machine's memory)",
    )
    where.add_argument("--scheduler", metavar="ADDRESS", help="use an existing Dask cluster: tls://HOST:PORT")
    papers = (
        ("ca", "certificate of the authority"),
        ("cert", "certificate of this machine"),
        ("key", "key of that certificate"),
    )
    for name, what in papers:
        where.add_argument(f"--tls-{name}", type=Path, metavar="FILE", help=f"with --scheduler: the {what}, as PEM")
    where.add_argument("--slurm", action="store_true", help="start a Dask cluster by Slurm's sbatch")
    where.add_argument("--interface", metavar="NAME", help="with --slurm: the network interface of its nodes, as eth0")
    where.add_argument(
        "--template", metavar="FILE", help="the batch job of --slurm (default: the template of this tool)"
    )
