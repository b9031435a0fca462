"""Proves the libraries on which the program depends, several side by side: first those with the longest chain of
dependents.

The kit's own command for all crates (at_once.py) keeps nothing for a check after an edit, and needs to write next to
the kit. If a checkout is to keep what the proofs make, or the kit's folder isn't writable, each crate is proved here by
a call of its own, in a copy of the sources that it needs, with the libraries below it linked into it, and with the
processors that no other crate needs. What it makes is linked back into the checkout.
"""

import contextlib
import hashlib
import os
import pathlib
import re
import shutil
import signal
import subprocess
import time
from dataclasses import dataclass
from typing import BinaryIO

from . import crates, kit, shares
from .proof_progress import ProofProgress

RLIB, KEPT = pathlib.Path("out/rlib"), pathlib.Path("out/incremental")
"""What the check of a library makes: what its dependents need, and what speeds the next check."""

KEY = pathlib.Path("out/proved-of")
"""A sum of all that the library was made of."""

MOST_JOBS = 4
"""More jobs in one check gain nothing."""


class NotProved(Exception):
    """The check of a crate failed; its name."""


@dataclass(frozen=True)
class Machine:
    """What the proofs may use: processors, and bytes of memory."""

    processors: int
    memory: int

    @classmethod
    def here(cls) -> "Machine":
        """Returns what this machine has free."""
        found = re.search(r"^MemAvailable: *(\d+)", pathlib.Path("/proc/meminfo").read_text(), re.M)
        return cls(len(os.sched_getaffinity(0)), int(0.85 * 1024 * int(found[1])) if found else 4 << 30)


@dataclass
class Running:
    """A check that runs: of which crate, in which folder, with which call, jobs and bytes of memory."""

    crate: str
    folder: pathlib.Path
    tool: subprocess.Popen
    jobs: int
    memory: float


def chains(above: dict[str, list[str]], seconds: dict[str, float]) -> dict[str, float]:
    """Returns for each crate the seconds of the longest chain from it upwards."""
    found: dict[str, float] = {}

    def chain(name: str) -> float:
        if name not in found:
            found[name] = seconds[name] + max(map(chain, above[name]), default=0)
        return found[name]

    for name in above:
        chain(name)
    return found


def keys(top: pathlib.Path, known: dict[str, list[str]], names: list[str]) -> dict[str, str]:
    """Returns for each crate, in the order of dependencies, a sum of its sources, of what it depends on, and of the
    kit."""
    folder = kit.folder()
    found: dict[str, str] = {}
    for name in names:
        sums = sorted((file, crates.sum_of(top / file)) for file in crates.files_of(top, name))
        text = repr(
            (sums, crates.listed(top, [name]), [found[it] for it in known[name]], folder and kit.identity(folder))
        )
        found[name] = hashlib.sha256(text.encode()).hexdigest()
    return found


def need(top: pathlib.Path, name: str, below: list[str]) -> float:
    """Returns the bytes of memory that a check of a crate may take, by the lines of the crate and of those below it."""
    rust, proofs = shares.lines(top / "crates" / name)
    others = sum(shares.lines(top / "crates" / it)[0] for it in below)
    return 1e9 + 1e6 * rust + 2e5 * proofs + 8e4 * others


def with_jobs(memory: float, jobs: int) -> float:
    """Returns the bytes that a check takes with a number of jobs."""
    return memory * (1 + 0.6 * (jobs - 1))


def jobs_for(machine: Machine, running: list[Running], waiting: int, memory: float) -> int:
    """Returns how many jobs the next of the waiting crates gets, 0 if it has to wait. The first runs even if memory is
    short."""
    room = machine.memory - sum(it.memory for it in running)
    if len(running) >= machine.processors or (running and memory > room):
        return 0
    idle = machine.processors - sum(it.jobs for it in running)
    jobs = max(1, min(MOST_JOBS, idle // waiting))
    while jobs > 1 and with_jobs(memory, jobs) > room:
        jobs -= 1
    return jobs


def linked(source: pathlib.Path, to: pathlib.Path) -> None:
    """Puts a folder to another place by links to its files, and replaces what is there."""
    fresh = to.with_name(f".{to.name}.new")
    shutil.rmtree(fresh, ignore_errors=True)
    shutil.copytree(source, fresh, copy_function=os.link)
    shutil.rmtree(to, ignore_errors=True)
    os.rename(fresh, to)


class Lanes:
    """Crates that are proved side by side."""

    def __init__(
        self,
        top: pathlib.Path,
        rt: str,
        log: BinaryIO,
        proof_progress: ProofProgress,
        keep: bool,
        machine: Machine | None = None,
    ) -> None:
        self.top, self.rt, self.log, self.proof_progress, self.keep = top, rt, log, proof_progress, keep
        self.machine = machine or Machine.here()
        known = crates.uses(top)
        self.below = {name: crates.parts_of(name, known)[:-1] for name in crates.parts(top)[:-1]}
        above = {name: [it for it, below in self.below.items() if name in below] for name in self.below}
        self.keys = keys(top, known, list(self.below))
        order = chains(above, shares.of(list(self.below), top))
        self.waiting = sorted(self.below, key=lambda name: -order[name])
        self.ended: set[str] = set()
        self.running: list[Running] = []
        self.lanes = top / "crates" / crates.PROGRAM / "out/lanes"

    def run(self) -> None:
        """Proves all. Raises NotProved if one fails, once those that run at the same time have ended. However it ends,
        the checkout has what was kept."""
        shutil.rmtree(self.lanes, ignore_errors=True)
        self.take_proved()
        failed = None
        try:
            while (self.waiting and not failed) or self.running:
                if not failed:
                    self.start_more()
                failed = self.end_some() or failed
                time.sleep(0.05)
        finally:
            for it in self.running:
                it.tool.send_signal(signal.SIGTERM)
            for it in self.running:
                it.tool.wait()
                # the kit itself knows by a stamp whether a library is whole
                self.bring_back(it, RLIB)
                self.bring_back(it, KEPT)
            shutil.rmtree(self.lanes, ignore_errors=True)
        if failed:
            raise NotProved(failed)

    def take_proved(self) -> None:
        """Takes the crates as done that an earlier call has proved from the same sources."""
        self.ended = {it for it in self.waiting if self.is_proved(it)}
        self.waiting = [it for it in self.waiting if it not in self.ended]
        self.proof_progress.taken(sorted(self.ended))

    def is_proved(self, name: str) -> bool:
        """Tells whether a call has left the library for the same sources. The kit tests this again as it builds the
        program."""
        key = self.top / "crates" / name / KEY
        return key.is_file() and key.read_text() == self.keys[name] and (self.top / "crates" / name / RLIB).is_dir()

    def start_more(self) -> None:
        """Starts the crates that can run now."""
        ready = [name for name in self.waiting if self.ended.issuperset(self.below[name])]
        for at, name in enumerate(ready):
            memory = need(self.top, name, self.below[name])
            jobs = jobs_for(self.machine, self.running, len(ready) - at, memory)
            if not jobs:
                return
            self.waiting.remove(name)
            self.start(name, jobs, with_jobs(memory, jobs))

    def start(self, name: str, jobs: int, memory: float) -> None:
        """Starts the check of a crate in a copy of what it needs."""
        lane = self.lanes / name
        lane.mkdir(parents=True)
        (lane / crates.LISTS[0]).write_text(crates.listed(self.top, [*self.below[name], name]))
        shutil.copy2(self.top / crates.LISTS[1], lane)
        for crate in (*self.below[name], name):
            for part in crates.PARTS:
                source = self.top / "crates" / crate / part
                if source.is_dir():
                    shutil.copytree(source, lane / "crates" / crate / part)
            (lane / "crates" / crate / "out").mkdir()
            if (self.top / "crates" / crate / RLIB).is_dir():
                linked(self.top / "crates" / crate / RLIB, lane / "crates" / crate / RLIB)
        kept = self.top / "crates" / name / KEPT
        if kept.is_dir():
            os.rename(kept, lane / "crates" / name / KEPT)
        with open(lane / "said", "wb") as said:
            words = [self.rt, "lib", "--jobs", str(jobs)]
            tool = subprocess.Popen(
                words, cwd=lane / "crates" / name, stdin=subprocess.DEVNULL, stdout=said, stderr=subprocess.STDOUT
            )
        self.running.append(Running(name, lane, tool, jobs, memory))

    def end_some(self) -> str | None:
        """Takes the checks that have ended, and returns the name of a crate whose check failed, if one did."""
        failed = None
        for it in [it for it in self.running if it.tool.poll() is not None]:
            self.running.remove(it)
            self.log.write(
                f"== {it.crate}, jobs: {it.jobs}, status: {it.tool.returncode}\n".encode()
                + (it.folder / "said").read_bytes()
            )
            if it.tool.returncode:
                failed = it.crate
                self.bring_back(it, KEPT)
            else:
                self.bring_back(it, RLIB)
                (self.top / "crates" / it.crate / KEY).write_text(self.keys[it.crate])
                if self.keep:
                    self.bring_back(it, KEPT)
                self.ended.add(it.crate)
                self.proof_progress.done(it.crate)
            shutil.rmtree(it.folder, ignore_errors=True)
        return failed

    def bring_back(self, it: Running, part: pathlib.Path) -> None:
        """Moves what a check has left into the checkout."""
        made, to = it.folder / "crates" / it.crate / part, self.top / "crates" / it.crate / part
        with contextlib.suppress(FileNotFoundError):
            to.parent.mkdir(exist_ok=True)
            if made.is_dir():
                shutil.rmtree(to, ignore_errors=True)
                os.rename(made, to)


def prove_all(rt: str, top: pathlib.Path, log: BinaryIO, proof_progress: ProofProgress, keep: bool) -> None:
    """Proves all libraries on which the program depends; raises NotProved if one fails."""
    Lanes(top, rt, log, proof_progress, keep).run()
