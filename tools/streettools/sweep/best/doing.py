"""What the command `./arterial sweep best` does: searches, compares, and writes what it found."""

import argparse
import json
import time
from pathlib import Path
from typing import Any

from ...shared import files
from ...shared.fault import Fault
from ...shared.progress import bar
from ...shared.saying import printed, say
from ...shared.status import Status
from ..doing import check, crew_of
from ..engine import Engine
from ..journal import Journal
from ..one_run import Outcome
from ..prepared import modules
from . import ending, held
from .opened import Opened, opened
from .search import Over, evolved, lines
from .tries import Runs, Tries, Try

JOURNAL = "runs"
"""The file of the runs that are done, in the folder."""


class Progress:
    """The bar of a search: its runs, and the best goal so far."""

    def __init__(self, search: Opened) -> None:
        self.bar: Any = bar(search.wanted.budget, "run", smoothing=0.05)

    def advance(self, count: int) -> None:
        """Shows that runs are done."""
        if self.bar is not None:
            self.bar.update(count)

    def tell(self, tries: Tries) -> None:
        """Shows the best goal so far."""
        best = tries.best()
        if self.bar is not None and best is not None:
            self.bar.set_postfix_str(f"best {best.value:.6g} (plan {best.number})")

    def close(self) -> None:
        """Ends the bar."""
        if self.bar is not None:
            self.bar.close()


def searched(search: Opened, tries: Tries) -> None:
    """Searches until the budget is spent or no plan is left: parameter by parameter, and then by scipy's differential
    evolution, which begins again where its plans are alike, until it finds no plan that is new."""
    counts, seed = search.space.counts, search.wanted.seed
    try:
        tries.try_present()
        base = search.ready.builder.read(search.wanted.present, None)
        lines(tries.costs, counts, search.space.moves(), search.space.nearest(base))
        while True:
            best = tries.best()
            known = len(tries.by_places)
            start = best.places if best is not None and best.places is not None else search.space.nearest(base)
            evolved(tries.costs, counts, start, seed)
            seed = (seed + 1) % 2**32
            if len(tries.by_places) == known:
                return
    except Over:
        pass


def best_of(search: Opened, tries: Tries) -> Try:
    """Returns the best plan; raises `Fault` if there is none."""
    best = tries.best()
    if best is not None:
        return best
    if not tries.all:
        why = f"{tries.first_unfit[1]}" if tries.first_unfit else tries.present_unfit
        raise Fault(f"no plan of the study keeps the rules: {tries.unfit:,} were left out; the first: {why}")
    row = tries.all[0].rows[0]
    why = row[1] or "a measure of the goal has nothing to measure"
    raise Fault(f"no run of the study gave the goal a value; the first: {why}")


def do(words: argparse.Namespace) -> int:
    """Does what the words ask for, and returns the exit status."""
    check(words)
    folder: Path = words.output
    search = opened(words)
    try:
        folder.mkdir(parents=True, exist_ok=True)
    except OSError as fault:
        raise Fault(f"{folder}: {fault.strerror}", Status.FILE) from None
    path = folder / JOURNAL
    if path.exists() and not (words.resume or words.anew):
        raise Fault(f"{path} already exists from an earlier search: use --resume to continue or --anew to discard it")
    if not words.resume and any((folder / it).exists() for it in ending.NAMES):
        say("sweep", f"{folder} has files of an earlier search, which are replaced")
    begun = time.monotonic()
    with Journal(path, words.anew) as journal:
        try:
            return ended(words, search, journal, begun)
        except KeyboardInterrupt:
            say("sweep", f"interrupted: {len(journal.places):,} runs are kept in {path}; --resume continues")
            return Status.INTERRUPTED


def ended(words: argparse.Namespace, search: Opened, journal: Journal, begun: float) -> int:
    """Searches, compares and writes; returns the exit status."""
    progress = Progress(search)
    with crew_of(words) as crew:
        engine = Engine(crew, search.keys, journal, progress.advance)
        tries = Tries(search.wanted, search.space, search.rules, search.goal,
                      Runs(search.keys, journal, engine, progress.advance))  # fmt: skip
        tries.tell = lambda: progress.tell(tries)
        try:
            crew.carry(task_of(words, search), modules(), search.ready.builder.program)
            searched(search, tries)
            progress.close()
            best = best_of(search, tries)
            engine.advance = tries.runs.advance = lambda count: None
            found = comparison(search, tries, best)
        finally:
            engine.end()
            progress.close()
    write(words, search, tries, best, found)
    tell(search, tries, best, time.monotonic() - begun, words.output)
    is_failed = tries.outcomes()[Outcome.FAILED] > 0
    journal.close(remove=not words.keep and not is_failed)
    return Status.UNFINISHED if is_failed else Status.DONE


def task_of(words: argparse.Namespace, search: Opened) -> dict[str, Any]:
    """Returns what the workers are given."""
    return {
        "study": search.document, "files": search.files.read, "check": words.check, "seconds": words.timeout,
    }  # fmt: skip


def comparison(search: Opened, tries: Tries, best: Try) -> held.Comparison | None:
    """Compares the best plan with the present one; None if the present plan wasn't run."""
    if tries.present is None:
        return None
    names = [*(it.name() for it in search.ready.columns), *(it.name for it in search.ready.study.own)]
    rows = [held.held_rows(search.wanted, tries.runs, it) for it in (tries.present, best)]
    return held.compared(search.wanted, search.goal, names, *rows)


def write(
    words: argparse.Namespace, search: Opened, tries: Tries, best: Try, found: held.Comparison | None
) -> None:
    """Writes all files of the folder, and prints the comparison."""
    folder: Path = words.output
    ending.write_table(search, tries.all, folder)
    ending.write_plan(search, search.ready.builder.document(search.ready.variants.of(best.runs[0]))["scenario"], folder)
    present = [] if tries.present in (None, best) else [tries.present]
    titles = ["present plan"] * len(present) + [f"best plan: {ending.values_of(search, best)}"]
    plans = [(title, it.runs[0]) for title, it in zip(titles, (*present, best)) if it is not None]
    ending.draw(search, search.ready.runner(False, words.timeout), plans, folder / ending.PICTURE)
    if found is None:
        for name in (ending.COMPARISON_TEXT, ending.COMPARISON_JSON):
            (folder / name).unlink(missing_ok=True)
        return
    text, document = held.text_of(found), json.dumps(held.document_of(found), indent=1) + "\n"
    for name, content in ((ending.COMPARISON_TEXT, text), (ending.COMPARISON_JSON, document)):
        with files.output(folder / name) as out:
            out.write(content)
    printed(document if words.json else text)


def tell(search: Opened, tries: Tries, best: Try, seconds: float, folder: Path) -> None:
    """Prints what was searched, and what was found."""
    outcomes = tries.outcomes()
    parts = [f"{outcomes[it]:,} {it}" for it in (Outcome.REFUSED, Outcome.FAILED) if outcomes[it]]
    parts += [f"{tries.repaired:,} plans repaired"] if tries.repaired else []
    parts += [f"{tries.unfit:,} plans left out"] if tries.unfit else []
    more = f" ({', '.join(parts)})" if parts else ""
    say("sweep", f"{tries.spent:,} runs of {len(tries.all):,} plans{more} in {seconds:.1f} s: {folder}")
    say("sweep", f"best: plan {best.number}, {ending.values_of(search, best)}: goal {best.value:.6g}")
    if tries.present is None:
        say("sweep", f"the present plan was not run, so nothing is compared: {tries.present_unfit}")
    elif best is tries.present:
        say("sweep", "no plan was better than the present one")
