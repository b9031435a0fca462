"""`./arterial cosim compare`: its options, and the table that it writes."""

import argparse
import json
import pathlib
import tempfile
from collections.abc import Sequence
from types import ModuleType
from typing import Any

from ..shared.commandline import Parser, add_json, add_output, add_program, number
from ..shared.fault import Fault
from ..shared.given import Given, read_toml
from ..shared.progress import counted
from ..shared.saying import say, say_replaced
from ..shared.status import Status
from . import comparing, comparing_queues, verdicts
from .comparison import Named, Result, Row, Terms, do_all, rows_of, undisturbed_of, without_folders_of_before
from .growing import Grown, grown, width_of, with_seed
from .seeds import added
from .totals import ALL, Mean

EXAMPLES = """\
examples:
  ./arterial cosim compare scenarios/offsets.compare.toml                 # by volumes and queues, without SUMO
  ./arterial cosim compare scenarios/sumo/street/offsets.toml -o out/     # under SUMO
  ./arterial cosim compare scenarios/sumo/street/bus.toml -o out/ --workers 4 --keep

All plans run with the same seeds, so they have the same vehicles. Differences are computed for each seed; the interval
of 95 % is Student's over the seeds. If it contains 0, the report says "no real difference". The folder gets
comparison.txt and comparison.json. docs/QUEUES.md and docs/COSIM.md explain the file."""
HEADS = ("plan", "trips", "delay", "stops", "more delay", "more stops", "delay differs")


def parser() -> argparse.ArgumentParser:
    """Returns the reader of the options."""
    words = Parser(
        "cosim compare",
        description="Runs several plans over the same seeds, and prints delay and stops side by side.",
        epilog=EXAMPLES,
    )
    words.add_argument("comparison", type=pathlib.Path, help="the file that names the plans, in TOML")
    add_output(words, "the folder for all results (needed under SUMO)", type=pathlib.Path, metavar="FOLDER")
    words.add_argument(
        "--workers", type=number(1, 64), default=1, metavar="N", help="number of parallel runs (default: 1)"
    )
    words.add_argument("--keep", action="store_true", help="keep each run's folder: trace, trips, study, report")
    add_json(words)
    add_program(words)
    return words


def shown(mean: Mean | None) -> str:
    """Returns a mean with its interval; a dash where there is none."""
    return "-" if mean is None else str(mean)


def table(rows: list[tuple[str, ...]]) -> list[str]:
    """Returns the lines of a table whose first and last columns are texts."""
    widths = [max(len(row[k]) for row in rows) for k in range(len(rows[0]))]
    lines = []
    for first, *numbers, last in rows:
        placed = [it.rjust(width) for it, width in zip(numbers, widths[1:])]
        lines.append("  ".join(["", first.ljust(widths[0]), *placed, last]).rstrip())
    return lines


def text_of(terms: Terms, rows: list[Row], quiet: dict[str, float | None]) -> str:
    """Returns the table as text, group by group, and what it says of all vehicles."""
    lines = [
        f"{len(terms.seeds)} seeds, {terms.seconds:g} s each, steps of {terms.step:g} s;"
        " delay in seconds, with the wait to get in;",
        f"means with intervals of 95 %; more: than under {terms.against}, paired by seed",
    ]
    for group in dict.fromkeys(it.group for it in rows):
        cells: list[tuple[str, ...]] = [HEADS]
        for it in (row for row in rows if row.group == group):
            means = (it.delay, it.stops, it.more_delay, it.more_stops)
            cells.append((it.plan, f"{it.trips:.0f}", *map(shown, means), verdicts.word(it.more_delay)))
        lines += ["", group, *table(cells)]
    said = list(verdicts.sentences(terms, [it for it in rows if it.group == ALL]))
    more = [*verdicts.of_width(terms, width_of(terms, rows)), *verdicts.of_quiet(quiet)]
    return "\n".join([*lines, "", *said, *more]) + "\n"


def width_document(terms: Terms, rows: list[Row]) -> dict[str, Any] | None:
    """Returns what JSON has of the wanted width; None if none was wanted."""
    if terms.wanted is None:
        return None
    reached = width_of(terms, rows)
    return {
        "wanted": terms.wanted.width,
        "reached": reached,
        "is_reached": reached is not None and reached <= terms.wanted.width,
        "most_seeds": terms.wanted.most_seeds,
    }


def document_of(terms: Terms, rows: list[Row], quiet: dict[str, float | None]) -> dict[str, Any]:
    """Returns the table as JSON has it."""

    def pair(mean: Mean | None) -> list | None:
        return None if mean is None else list(mean)

    return {
        "seeds": list(terms.seeds),
        "seconds": terms.seconds,
        "step": terms.step,
        "warm": terms.warm,
        "against": terms.against,
        "width": width_document(terms, rows),
        "undisturbed": quiet,
        "rows": [
            {
                "plan": it.plan,
                "group": it.group,
                "trips": it.trips,
                "delay": pair(it.delay),
                "stops": pair(it.stops),
                "more_delay": pair(it.more_delay),
                "more_stops": pair(it.more_stops),
                "delay_p": it.delay_p,
                "stops_p": it.stops_p,
                "delay_differs": verdicts.verdict(it.more_delay),
                "stops_differ": verdicts.verdict(it.more_stops),
            }
            for it in rows
        ],
    }


def kind_of(given: Given) -> ModuleType:
    """Returns what does a comparison: by queues where its file names volumes, under SUMO where it names SUMO's."""
    if "volumes" in given.table and not {"sumo", "map"} & set(given.table):
        return comparing_queues
    if not {"volumes", "sumo", "map"} & set(given.table):
        raise given.refuse("volumes", "is missing, or sumo and map: who drives?")
    return comparing


def with_walks(comparison: comparing.Comparison) -> comparing.Comparison:
    """Returns the plans that can be compared where persons walk; says which are left out, and which step is short
    enough for measures."""
    found, left = comparing.without_walks(comparison)
    for plan in left:
        say("cosim", f"plan {plan} is left out: SUMO's controllers have no walk times, and persons walk here")
    if found.terms.step >= 1:
        say("cosim", "steps of 1 s lower SUMO's saturation flow: they are for looking; measure delay with step = 0.1")
    return found


def ran(kind: ModuleType, terms: Terms, plans: Sequence[Named], jobs: list[Any], words: argparse.Namespace) -> Grown:
    """Does all runs, with as many seeds as the terms want."""
    with counted(0, "run") as progress:

        def do(some: list[Any]) -> list[Result]:
            if progress is None:
                return do_all(some, kind.do, kind.pool_of(words.workers), lambda count: None)
            progress.total += len(some)
            progress.refresh()
            return do_all(some, kind.do, kind.pool_of(words.workers), progress.update)

        return grown(terms, plans, jobs, 1 if words.keep else max(1, words.workers // len(plans)), do)


def without_later_folders(terms: Terms, plans: Sequence[Named], jobs: list[Any]) -> None:
    """Refuses folders of seeds that may be added, and that are there already."""
    if terms.wanted is not None:
        more = added(terms.seeds, terms.wanted.most_seeds - len(terms.seeds))
        outs = [with_seed(job, seed).out for seed in more for job in jobs[: len(plans)]]
        without_folders_of_before([it for it in outs if it is not None])


def main(given: list[str]) -> int:
    """Runs a comparison, and returns the exit status."""
    words = parser().parse_args(given)
    if words.keep and words.output is None:
        raise Fault("--keep needs -o FOLDER")
    read = read_toml(words.comparison)
    kind = kind_of(read)
    comparison = kind.of(read, words.comparison.parent)
    if kind is comparing:
        comparison = with_walks(comparison)
    jobs = kind.jobs_of(comparison, words.program, words.output or pathlib.Path(tempfile.gettempdir()), words.keep)
    if words.output is None and kind is comparing:
        raise Fault("a comparison under SUMO needs -o FOLDER, in which SUMO writes")
    if words.keep:
        without_later_folders(comparison.terms, comparison.plans, jobs)
    done = ran(kind, comparison.terms, comparison.plans, jobs, words)
    write(words, done, comparison.plans)
    if kind is comparing:
        tell(done.terms, done.jobs, done.results)
    return Status.DONE


def write(words: argparse.Namespace, done: Grown, plans: Sequence[Named]) -> None:
    """Writes the table."""
    rows = rows_of(done.terms, plans, done.jobs, done.results)
    quiet = undisturbed_of(plans, done.jobs, done.results)
    text = text_of(done.terms, rows, quiet)
    document = json.dumps(document_of(done.terms, rows, quiet), indent=1) + "\n"
    if words.output is not None:
        say_replaced("cosim", words.output / "comparison.json")
        words.output.mkdir(parents=True, exist_ok=True)
        (words.output / "comparison.txt").write_text(text, encoding="utf-8")
        (words.output / "comparison.json").write_text(document, encoding="utf-8")
    print(document if words.json else text, end="")


def tell(terms: Terms, jobs: list[comparing.Job], results: list[Result]) -> None:
    """Says how fast the runs under cabinets were."""
    own = [it.times for job, it in zip(jobs, results) if job.program is not None and it.times.whole]
    if own:
        whole, steps = sum(it.whole for it in own), sum(it.steps for it in own)
        share = sum(it.cabinets for it in own) / whole
        fast = f"{steps * terms.step / whole:.0f} simulated seconds in one"
        say("cosim", f"{fast}, {share:.0%} of the time for the cabinets")
