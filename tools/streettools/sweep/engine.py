"""Drives the runs: batches of variants to the workers, never more than they can do soon, and each result to the disk
as it comes."""

import contextlib
import itertools
import math
import queue
import signal
import sys
import time
from collections.abc import Callable, Iterator
from dataclasses import dataclass
from typing import Any

from ..shared.saying import say
from .crew import Crew, Lost
from .journal import Journal
from .one_run import Outcome
from .prepared import Keys
from .variants import Asked

AIM, MOST, GROWTH = 5.0, 64, 4
"""The seconds that a batch should take, its maximum number of runs, and its maximum size as a multiple of the batch
before: on a cluster it takes 5 to 20 ms to send a batch and to take its results."""
SHARES = 2
"""A batch has at most a worker's share of the remaining runs divided by this, so that all workers end at about the same
time."""
LOOK, LOOK_ALONE = 10.0, 2.0
"""The seconds between two looks at how many workers there are, and at whether the first has come."""
PATIENCE, PATIENCE_ALONE = 5.0, 30.0
"""The seconds after which it is checked whether a worker still works, and after which a line says that none does."""


@contextlib.contextmanager
def interrupts_told(tell: Callable[[], None]) -> Iterator[None]:
    """Calls `tell` at a first Ctrl-C, which doesn't interrupt what is done just then; a second one interrupts it."""

    def taken(*_: object) -> None:
        signal.signal(signal.SIGINT, before)
        tell()

    before = signal.signal(signal.SIGINT, taken)
    try:
        yield
    finally:
        signal.signal(signal.SIGINT, before)


@dataclass
class Job:
    """Some variants on their way."""

    indexes: list[Asked]
    keys: list[str]
    sent: float


class Engine:
    """Sends out the variants that are not done."""

    def __init__(self, crew: Crew, keys: Keys, journal: Journal, advance: Callable[[int], None]) -> None:
        self.crew, self.keys, self.journal, self.advance = crew, keys, journal, advance
        self.jobs: dict[Any, Job] = {}
        self.over: queue.SimpleQueue[Any] = queue.SimpleQueue()
        """Batches that are over, and None for a Ctrl-C."""
        self.size, self.threads, self.looked = 1, 1, 0.0
        self.left = sys.maxsize
        """How many runs haven't been sent out."""
        self.alone: float | None = None

    def run(self, pending: Iterator[tuple[Asked, str]], left: int = sys.maxsize) -> None:
        """Runs the variants with these numbers and keys, of which there are `left`. A Ctrl-C ends it between two
        batches, so that each batch that was taken is written whole."""
        self.left = left
        with interrupts_told(lambda: self.over.put(None)):
            self.run_all(pending)

    def run_all(self, pending: Iterator[tuple[Asked, str]]) -> None:
        """Sends out batches and takes their results, until nothing is left."""
        while True:
            self.look()
            while len(self.jobs) < 2 * self.threads + 1 and (batch := self.batch(pending)):
                self.send(batch)
            if not self.jobs:
                return
            try:
                ticket = self.over.get(timeout=PATIENCE)
            except queue.Empty:
                continue
            if ticket is None:
                raise KeyboardInterrupt
            if (job := self.jobs.pop(ticket, None)) is not None:
                self.take(ticket, job)

    def batch(self, pending: Iterator[tuple[Asked, str]]) -> list[tuple[Asked, str]]:
        """Returns the next variants to send, none at the end."""
        share = self.left // (SHARES * max(1, self.threads))
        found = list(itertools.islice(pending, max(1, min(self.size, share))))
        self.left -= len(found)
        return found

    def send(self, batch: list[tuple[Asked, str]]) -> None:
        """Sends variants to some worker."""
        indexes, keys = [index for index, _ in batch], [key for _, key in batch]
        job = Job(indexes, keys, time.monotonic())
        self.jobs[self.crew.submit(indexes, self.over.put)] = job

    def take(self, ticket: Any, job: Job) -> None:
        """Takes the results of a batch. If they were lost with a worker, the batch is waited for again; if workers died
        with it repeatedly, it is sent run by run, to find the run that does it."""
        try:
            rows = self.crew.rows(ticket)
        except Lost:
            if len(job.indexes) > 1:
                for one in zip(job.indexes, job.keys):
                    self.send([one])
                return
            blank = [None] * (len(self.keys.prepared.columns) + len(self.keys.prepared.study.own))
            rows = [[Outcome.FAILED.value, "its worker died, four times", None, *blank]]
        if rows is None:
            self.jobs[ticket] = job
            self.crew.waits(ticket, self.over.put)
            return
        self.journal.add(zip(job.keys, rows))
        self.paced(job)
        self.advance(len(job.indexes))

    def paced(self, job: Job) -> None:
        """Makes batches larger while they are done fast. Two wait for each worker that has one, so a third of the
        time is a batch's own."""
        each = (time.monotonic() - job.sent) / 3 / len(job.indexes)
        self.size = max(1, min(MOST, GROWTH * self.size, int(AIM / max(each, 1e-6))))

    def look(self) -> None:
        """Looks now and then how many workers there are."""
        now = time.monotonic()
        if now - self.looked < (LOOK if self.threads else LOOK_ALONE):
            return
        self.looked = now
        self.threads = self.crew.count()
        if self.threads:
            self.alone = None
        elif self.alone is None:
            self.alone = now
        elif now - self.alone > PATIENCE_ALONE:
            self.alone = math.inf
            say("sweep", f"{self.crew.address} has no workers: waiting for some (Ctrl-C ends)")

    def end(self) -> None:
        """Gives back what the workers were given."""
        self.crew.end(list(self.jobs))
