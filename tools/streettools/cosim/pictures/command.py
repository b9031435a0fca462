"""The command `./arterial cosim draw`: pictures of a run with traffic, from the folder that the run has written."""

import argparse
import pathlib

from ...look import called, known
from ...look.words import CABINET, FROM, STARTED, cabinets, picture, travel
from ...shared.clock import at, daytime, placed
from ...shared.commandline import Parser, add_output
from ...shared.fault import Fault
from ...shared.trace_records import NotATrace
from ...shared.status import Status
from .. import records
from . import seen
from .seen import View
from ..records import Study

EXAMPLES = """\
examples, after a run has written OUT/study.json and OUT/session.trace:
  ./arterial cosim draw purdue OUT --cabinet 2 -o purdue.svg          # arrivals in each cycle
  ./arterial cosim draw paths OUT --travel 20,20,20 --from 600 --to 900 -o paths.svg
  ./arterial cosim draw paths OUT --from 07:10 --to 07:15 -o paths.svg   # of a sheet, which has the times of travel
  ./arterial cosim draw splits OUT --cabinet "Oak & 3rd" -o splits.svg   # each service, and how its green ended
  ./arterial cosim draw queues OUT --cabinet 2 --movement EBT,SBT -o queues.svg

docs/QUEUES.md explains the pictures."""
KINDS = ("paths", "purdue", "splits", "queues")
USUAL = {"paths": 300.0, "purdue": 3600.0, "splits": 3600.0, "queues": 900.0}
"""The seconds that are shown by default."""
MOST = 7200.0


def parser() -> argparse.ArgumentParser:
    """Returns the reader of the options."""
    words = Parser(
        "cosim draw",
        description="Draws a run with traffic: vehicles' paths over the bands, the Purdue coordination diagram, "
        "the split monitor, queues over time.",
        epilog=EXAMPLES,
    )
    words.add_argument("kind", choices=KINDS, help="the picture to draw")
    words.add_argument("folder", help="the folder of the run (its -o)")
    add_output(words, "the picture: .svg, .png or .pdf", type=picture, required=True)
    words.add_argument("--cabinet", metavar="NAME", help=f"except for paths: {CABINET}")
    words.add_argument(
        "--movement", metavar="NAME,..", help="the movements (default: for purdue the two busiest, for queues all)"
    )
    words.add_argument(
        "--cabinets", type=cabinets, metavar="NAME,..",
        help="the cabinets of paths, in order, by number or name (default: all)",
    )
    words.add_argument("--travel", type=travel, metavar="S,S,..",
                       help="seconds from each cabinet to the next, for paths (default: as in the sheet)")  # fmt: skip
    words.add_argument("--from", dest="first", type=at, metavar="TIME", help=f"{FROM} (default: --warm of the run)")
    words.add_argument("--to", dest="last", type=at, metavar="TIME", help="where to end, in the same forms")
    words.add_argument("--start", type=daytime, metavar="TIME", help=STARTED)
    return words


def study_in(folder: pathlib.Path) -> Study:
    """Reads what a run has written."""
    path = folder / "study.json"
    try:
        return records.load(path)
    except OSError as fault:
        raise Fault(f"{path}: {fault.strerror}: -o of the run writes it", Status.FILE) from None
    except (ValueError, KeyError, TypeError, IndexError):
        raise Fault(f"{path}: not what a run writes") from None


def view_of(words: argparse.Namespace, study: Study, names: called.Called) -> View:
    """Returns what is looked at, which the run must have."""
    clock = known.clock_of(seen.scenario_of(study.trace))
    began, ticks = known.started(words.start, names, clock), round(10 * study.seconds)
    start = study.warm if words.first is None else placed(words.first, began, clock, ticks) / 10
    usual = min(study.seconds, start + USUAL[words.kind])
    end = usual if words.last is None else placed(words.last, began, clock, ticks) / 10
    if not 0 <= start < end <= study.seconds:
        raise Fault(f"expected a range within seconds 0 to {study.seconds:g}, found {start:g} to {end:g}")
    if end - start > MOST:
        raise Fault(f"at most {MOST:g} s fit into a picture")
    return View(start, end, began, names)


def draw_paths(words: argparse.Namespace, study: Study, view: View) -> None:
    """Draws paths over the bands."""
    from . import paths

    chosen = [view.names.number(it, study.cabinets) for it in words.cabinets or map(str, range(1, study.cabinets + 1))]
    times = words.travel or view.names.travel(chosen)
    if times is None:
        raise Fault("paths need --travel, the seconds from each cabinet to the next: no sheet of this run has them")
    paths.draw(study, chosen, times, view, words.output)


def draw(words: argparse.Namespace, study: Study) -> None:
    """Draws what the words ask for."""
    path = called.beside(str(study.trace))
    names = called.fitting(called.read(path), path, study.cabinets) if path else called.Called()
    view = view_of(words, study, names)
    if words.kind == "paths":
        draw_paths(words, study, view)
        return
    cabinet = 1 if words.cabinet is None else names.number(words.cabinet, study.cabinets)
    if words.kind == "splits":
        from . import splits

        splits.draw(study, cabinet, view, words.output)
        return
    asked = words.movement.split(",") if words.movement else None
    movements = seen.chosen(study, cabinet, asked)
    if words.kind == "purdue":
        from . import purdue

        purdue.draw(study, movements if asked else seen.busiest(study, movements, 2), view, words.output)
    else:
        from . import queues

        queues.draw(study, movements, view, words.output)


def main(given: list[str]) -> int:
    """Does what the words ask for, and returns the exit status."""
    words = parser().parse_args(given)
    try:
        draw(words, study_in(pathlib.Path(words.folder)))
    except NotATrace as fault:
        raise Fault(f"{words.folder}: {fault}") from None
    return Status.DONE
