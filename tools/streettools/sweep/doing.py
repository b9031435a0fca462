"""What the command `./arterial sweep` does: counts, shows or runs the variants of a study."""

import argparse
import contextlib
import json
import sys
import time
from collections import Counter
from collections.abc import Iterator
from dataclasses import dataclass
from pathlib import Path
from typing import Any

from ..shared.fault import Fault
from ..shared.program import found
from ..shared.progress import bar
from ..shared.saying import say, say_replaced
from ..shared.status import Status
from . import asking, clusters, here, slurm, table
from .crew import Crew
from .files import Files, study_file
from .journal import Journal
from .one_run import Outcome
from .prepared import Keys, Prepared, hash_of, modules, prepared
from .variants import Asked


@dataclass
class Sweep:
    """A sweep: the study's text, the study made ready, the keys of its runs."""

    document: dict[str, Any]
    files: Files
    ready: Prepared
    keys: Keys

    def pending(self, journal: Journal) -> Iterator[tuple[Asked, str]]:
        """Yields the runs that aren't done."""
        for index in range(self.ready.variants.count()):
            key = self.keys.of(self.ready.variants.at(index))
            if key not in journal:
                yield index, key

    def done(self, journal: Journal) -> int:
        """Returns how many runs are done."""
        return sum(
            self.keys.of(self.ready.variants.at(index)) in journal for index in range(self.ready.variants.count())
        )


def opened(words: argparse.Namespace) -> Sweep:
    """Reads the study and makes it ready."""
    path = Path(words.study)
    document, files = study_file(path), Files(path.parent)
    if "best" in document:
        raise Fault("study: best is a table of a search, which ./arterial sweep best makes")
    program = found(words.program)
    ready = prepared(document, files, program)
    return Sweep(document, files, ready, ready.key(hash_of(modules()), hash_of(program.read_bytes()), words.check))


@contextlib.contextmanager
def crew_of(words: argparse.Namespace) -> Iterator[Crew]:
    """Gives the workers that the words ask for."""
    given: contextlib.AbstractContextManager[Crew]
    if words.scheduler:
        given = clusters.at(words.scheduler, clusters.Papers(words.tls_ca, words.tls_cert, words.tls_key))
    elif words.slurm:
        given = slurm.started(words.workers or here.processors(), words.interface, words.template)
    else:
        given = here.workers(words.workers, words.memory)
    with given as crew:
        yield crew


def run(words: argparse.Namespace, sweep: Sweep, journal: Journal) -> int:
    """Does the runs that aren't done; returns how many were done before."""
    from .engine import Engine

    total, before = sweep.ready.variants.count(), sweep.done(journal)
    if before == total:
        return before
    with crew_of(words) as crew:
        shown = bar(total, "run", initial=before, smoothing=0.05)
        engine = Engine(crew, sweep.keys, journal, shown.update if shown is not None else lambda count: None)
        try:
            task = {"study": sweep.document, "files": sweep.files.read, "check": words.check, "seconds": words.timeout}
            crew.carry(task, modules(), sweep.ready.builder.program)
            engine.run(sweep.pending(journal), total - before)
        finally:
            engine.end()
            if shown is not None:
                shown.close()
    return before


def lines(sweep: Sweep, journal: Journal, outcomes: Counter[str], first: dict[str, str]) -> Iterator[list[Any]]:
    """Yields the lines of the table, counts their outcomes, and keeps the first words of each outcome."""
    for index in range(sweep.ready.variants.count()):
        row = journal.row(sweep.keys.of(sweep.ready.variants.at(index)))
        outcomes[row[0]] += 1
        if row[1]:
            first.setdefault(row[0], f"run {index + 1}: {row[1]}")
        yield sweep.ready.line(index, row)


def sweep_over(words: argparse.Namespace) -> int:
    """Runs a study, and writes its table."""
    out = Path(words.output)
    table.check(out)
    sweep = opened(words)
    asking.sure(sweep.ready.variants.count(), words.yes)
    path = out.with_name(f"{out.name}.runs")
    if not words.resume:
        say_replaced("sweep", out)
    if path.exists() and not (words.resume or words.anew):
        raise Fault(f"{path} already exists from an earlier sweep: use --resume to continue or --anew to discard it")
    begun = time.monotonic()
    with Journal(path, words.anew) as journal:
        try:
            before = run(words, sweep, journal)
        except KeyboardInterrupt:
            say(
                "sweep",
                f"interrupted: {sweep.done(journal):,} of {sweep.ready.variants.count():,} runs are kept in {path}; "
                "--resume continues",
            )
            return Status.INTERRUPTED
        outcomes: Counter[str] = Counter()
        first: dict[str, str] = {}
        table.write(out, sweep.ready.names(), lines(sweep, journal, outcomes, first))
        journal.close(remove=not words.keep and not outcomes[Outcome.FAILED])
    tell(outcomes, first, before, time.monotonic() - begun, out)
    if outcomes[Outcome.REFUSED] and not outcomes[Outcome.DONE] and not outcomes[Outcome.FAILED]:
        say("sweep", "all runs were refused: nothing was measured")
        return Status.REFUSED
    return Status.UNFINISHED if outcomes[Outcome.FAILED] else Status.DONE


def tell(outcomes: Counter[str], first: dict[str, str], before: int, seconds: float, out: Path) -> None:
    """Prints the results of the runs."""
    parts = [f"{outcomes[it]:,} {it}" for it in Outcome if outcomes[it]]
    kept = f", {before:,} of them before" if before else ""
    say("sweep", f"{sum(outcomes.values()):,} runs ({', '.join(parts)}{kept}) in {seconds:.1f} s: {out}")
    for outcome, told in first.items():
        say("sweep", f"the first that is {outcome}: {told}")


def count(words: argparse.Namespace) -> int:
    """Prints how many runs a study makes, and their parameters."""
    ready = opened(words).ready
    parts = [
        f"{it.name} {it.values.count() if it.values.steps is None or it.values.kind.value == 'range' else 'random'}"
        for it in ready.study.parameters
    ]
    parts += [f"samples {ready.study.samples}"] if ready.study.samples > 1 else []
    parts += [f"seeds {len(ready.study.seeds)}"] if ready.study.seeds else []
    if words.json:
        print(json.dumps({"runs": ready.variants.count(), "of": parts}))
    else:
        print(f"{ready.variants.count():,} runs: {', '.join(parts)}")
    return Status.DONE


def show(words: argparse.Namespace) -> int:
    """Writes the scenario of a run."""
    ready = opened(words).ready
    if words.show > ready.variants.count():
        raise Fault(f"the study makes {ready.variants.count():,} runs")
    sys.stdout.write(ready.builder.built(ready.variants.at(words.show - 1)).text.decode() + "\n")
    return Status.DONE


def check(words: argparse.Namespace) -> None:
    """Refuses words about the workers that don't go together."""
    papers = (words.tls_ca, words.tls_cert, words.tls_key)
    if words.scheduler and (words.slurm or words.workers or words.memory):
        raise Fault("--scheduler goes without --slurm, --workers and --memory: the cluster has its own workers")
    if words.scheduler and not words.scheduler.startswith("tls://"):
        raise Fault(f"--scheduler {words.scheduler}: expected tls://HOST:PORT; anyone who reaches an unencrypted "
                    "scheduler runs code as you")  # fmt: skip
    if bool(words.scheduler) != all(papers) or not words.scheduler and any(papers):
        raise Fault("--scheduler goes with --tls-ca, --tls-cert and --tls-key, the files of the cluster's certificates")
    if words.slurm != bool(words.interface):
        raise Fault("--slurm goes with --interface NAME, the network interface of the nodes, as eth0")


def do(words: argparse.Namespace) -> int:
    """Does what the words ask for, and returns the exit status."""
    check(words)
    return count(words) if words.count else show(words) if words.show else sweep_over(words)
