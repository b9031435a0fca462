"""`./arterial cosim table`: trips, passages and queues of a run as tidy tables."""

import argparse
import csv
import pathlib
from collections.abc import Iterator
from typing import Any

from ..shared import files
from ..shared.commandline import Parser, add_output
from ..shared.fault import Fault
from ..shared.saying import say_replaced
from ..shared.status import Status
from ..sweep import table
from . import records
from .records import Study

EXAMPLES = """\
examples:
  ./arterial cosim table trips out/ -o trips.csv            # a row for each vehicle and person
  ./arterial cosim table passages out/ > passages.csv       # a row for each vehicle at each stop line
  /usr/bin/python3 -c "import pandas; print(pandas.read_csv('trips.csv').groupby('route').delay.mean())"

The folder is that of `cosim run` or `cosim queues`. docs/MEASURES.md defines the columns."""

TRIPS = ["vehicle", "route", "kind", "depart", "arrive", "delay", "stops", "passages"]
PASSAGES = [
    "vehicle", "route", "kind", "place", "cabinet", "movement", "phase", "arrived", "passed", "delay", "stopped",
    "on_green",
]  # fmt: skip
QUEUES = ["cabinet", "movement", "second", "vehicles"]


def trips(study: Study) -> Iterator[list[Any]]:
    """Yields a row for each trip."""
    for it in study.trips:
        row = [it.vehicle, it.route, str(it.kind), it.depart, it.arrive, it.delay, it.stops]
        yield [*row, len(it.passages)]


def passages(study: Study) -> Iterator[list[Any]]:
    """Yields a row for each passage of a stop line; one at which a vehicle waited at the end has no second at which it
    passed."""
    for it in study.trips:
        head = [it.vehicle, it.route, str(it.kind)]
        for place, row in enumerate(it.passages, 1):
            seen = [row.arrived, row.released, row.delay, int(row.stopped), int(row.on_green)]
            yield [*head, place, row.cabinet, row.movement, row.phase, *seen]
        if it.waits is not None:
            cabinet, movement, at = it.waits
            phase = study.movement(cabinet, movement).phase
            yield [*head, len(it.passages) + 1, cabinet, movement, phase, at, None, None, None, None]


def queues(study: Study) -> Iterator[list[Any]]:
    """Yields a row for each change of a queue."""
    yield from ([*it] for it in study.queues)


WHAT = {"trips": (TRIPS, trips), "passages": (PASSAGES, passages), "queues": (QUEUES, queues)}


def parser() -> argparse.ArgumentParser:
    """Returns the reader of the options."""
    words = Parser("cosim table", description="Writes what a run recorded as a tidy table.", epilog=EXAMPLES)
    words.add_argument("what", choices=list(WHAT), help="rows of trips, of passages of stop lines, or of queues")
    words.add_argument("folder", type=pathlib.Path, help="the folder of a run")
    add_output(words, "the table to write, .csv or .parquet (default: CSV on standard output)", metavar="TABLE")
    return words


def main(given: list[str]) -> int:
    """Writes a table, and returns the exit status."""
    words = parser().parse_args(given)
    path = None if words.output is None else pathlib.Path(words.output)
    if path is not None:
        table.check(path)
        say_replaced("cosim", path)
    kept = words.folder / "study.json"
    try:
        study = records.load(kept)
    except OSError as fault:
        raise Fault(f"{kept}: {fault.strerror}", Status.FILE) from None
    except (ValueError, KeyError, TypeError):
        raise Fault(f"{kept}: not what a run of cosim recorded") from None
    names, rows = WHAT[words.what]
    if path is None:
        with files.output(None) as out:
            writer = csv.writer(out, lineterminator="\n")
            writer.writerow(names)
            writer.writerows([table.cell(it) for it in row] for row in rows(study))
    else:
        table.write(path, names, rows(study))
    return Status.DONE
