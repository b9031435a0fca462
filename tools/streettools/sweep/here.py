"""Workers on this machine: processes that communicate with the sweep over pipes, which no other process can open."""

import contextlib
import multiprocessing
import os
import queue
import signal
import tempfile
from collections.abc import Callable, Iterator
from concurrent.futures import CancelledError, Future, ThreadPoolExecutor
from multiprocessing import resource_tracker
from multiprocessing.connection import Connection
from pathlib import Path
from typing import Any

from ..shared.fault import Fault
from ..shared.status import Status
from .carried import Parcel
from .crew import TRIES, Crew, Lost, Rows
from .variants import Asked

LOOK = 0.5
"""The seconds between two looks at how much memory a worker has."""
PAGE, MIB = os.sysconf("SC_PAGE_SIZE"), 1 << 20
PROCESSES = multiprocessing.get_context("spawn")


def processors() -> int:
    """Returns how many processors this process may use."""
    return len(os.sched_getaffinity(0))


def share(workers: int) -> int:
    """Returns the bytes of memory that each of `workers` workers may have by default: together no more than the machine
    has, and each no more than a processor's share."""
    return os.sysconf("SC_PHYS_PAGES") * PAGE // max(workers, os.cpu_count() or 1)


class Died(Exception):
    """A worker died."""


class Unable(Exception):
    """A worker can't prepare the sweep, or can't continue; the words say why."""


def serve(pipe: Connection, parcel: Parcel) -> None:
    """Does batches until the pipe ends: the work of a worker's process."""
    with contextlib.suppress(EOFError, OSError):
        try:
            parcel.start()
            while True:
                pipe.send((parcel.work.rows(pipe.recv()), None))
        except (EOFError, OSError):
            raise
        except MemoryError:
            os._exit(1)
        except Exception as fault:
            pipe.send((None, f"{type(fault).__name__}: {fault}"))


@contextlib.contextmanager
def without_interrupts() -> Iterator[None]:
    """Makes processes that start in the block ignore Ctrl-C, as do those that they start: the sweep handles it, and
    ends them."""
    resource_tracker.ensure_running()
    before = signal.pthread_sigmask(signal.SIG_BLOCK, [signal.SIGINT])
    try:
        yield
    finally:
        signal.pthread_sigmask(signal.SIG_SETMASK, before)


class Worker:
    """A process that does batches."""

    def __init__(self, parcel: Parcel, most: int) -> None:
        self.most = most
        self.pipe, its = PROCESSES.Pipe()
        self.process = PROCESSES.Process(target=serve, args=(its, parcel), daemon=True)
        with without_interrupts():
            self.process.start()
        its.close()

    def memory(self) -> int:
        """Returns the bytes of memory that the process has; 0 if it is gone."""
        try:
            return int(Path(f"/proc/{self.process.pid}/statm").read_text().split()[1]) * PAGE
        except (OSError, IndexError):
            return 0

    def rows(self, indexes: list[Asked]) -> Rows:
        """Returns the results of some variants. If the worker has more memory than it may, it is ended, and Died is
        raised."""
        try:
            self.pipe.send(indexes)
            while not self.pipe.poll(LOOK):
                if self.memory() > self.most:
                    self.kill()
            found, fault = self.pipe.recv()
        except (EOFError, OSError):
            raise Died from None
        if fault is not None:
            raise Unable(fault)
        rows: Rows = found
        return rows

    def kill(self) -> None:
        """Ends the process."""
        self.process.kill()


class Here(Crew):
    """Processes on this machine. A thread waits for each of them."""

    address = "this machine"
    sends_program = False

    def __init__(self, workers: int, most: int, folder: Path) -> None:
        super().__init__()
        self.workers, self.most, self.folder = workers, most, folder
        self.pool = ThreadPoolExecutor(workers)
        self.idle: queue.SimpleQueue[Worker] = queue.SimpleQueue()
        self.all: set[Worker] = set()
        self.is_over = False
        self.parcel: Parcel

    def take_up(self, parcel: Parcel) -> None:
        self.parcel = parcel
        parcel.write(self.folder / parcel.name)
        for _ in range(self.workers):
            self.idle.put(self.begun())

    def begun(self) -> Worker:
        """Returns a new worker."""
        made = Worker(self.parcel, self.most)
        self.all.add(made)
        return made

    def count(self) -> int:
        return self.workers

    def submit(self, indexes: list[Asked], over: Callable[[Any], object]) -> Future[Rows]:
        made = self.pool.submit(self.done, indexes)
        self.waits(made, over)
        return made

    def waits(self, ticket: Future[Rows], over: Callable[[Any], object]) -> None:
        ticket.add_done_callback(over)

    def done(self, indexes: list[Asked]) -> Rows:
        """Returns a worker's results of some variants; a worker that dies is replaced."""
        worker = self.idle.get()
        try:
            for _ in range(TRIES):
                try:
                    return worker.rows(indexes)
                except Died:
                    worker = self.replaced(worker)
            raise Lost
        finally:
            self.idle.put(worker)

    def replaced(self, dead: Worker) -> Worker:
        """Returns a worker in place of one that died; at the end there is none."""
        if self.is_over:
            raise CancelledError
        dead.kill()
        self.all.discard(dead)
        return self.begun()

    def rows(self, ticket: Future[Rows]) -> Rows | None:
        try:
            return ticket.result()
        except Unable as fault:
            raise Fault(f"a worker failed: {fault}", Status.FILE) from None

    def end(self, tickets: list[Any]) -> None:
        self.is_over = True
        for it in list(self.all):
            it.kill()
        self.pool.shutdown(cancel_futures=True)


@contextlib.contextmanager
def workers(count: int | None, memory: int | None) -> Iterator[Here]:
    """Gives processes on this machine: as many as processors, unless a number is given, each with at most `memory` MiB
    for its Python."""
    number = count or processors()
    most = memory * MIB if memory else share(number)
    with tempfile.TemporaryDirectory(prefix="arterial-sweep-", ignore_cleanup_errors=True) as folder:
        yield Here(number, most, Path(folder))
