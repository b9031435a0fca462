"""Proves the program and all that it depends on by one call of the kit's own command for all crates, `rt ci`, in a copy
of their sources.

The kit proves several crates side by side, those with the longest chain of dependents first, and gives a crate the
processors that no other crate waits for. A check there reads what the libraries below state, and not their proofs, and
keeps nothing for a check after an edit. The kit keeps each crate that passed in its own folder, so that an interrupted
call continues where it was, and what a gate has proved on this machine isn't proved again.
"""

import os
import pathlib
import re
import select
import shutil
import signal
import subprocess
from collections.abc import Iterator
from typing import IO, BinaryIO

from . import crates, kit, record
from .lanes import NotProved
from .proof_progress import ProofProgress

DONE = re.compile(r"rt: (\w+) proved\n?")
KEPT = re.compile(r"rt: (\w+) is kept: ")
FAILED = re.compile(r"rt: (\w+) NOT PROVED")
"""What the kit says of a crate: that it proved it, that an earlier call did, that it could not."""

RUNS = ("args", "stdin", "stdout", "status", "data")
"""What the kit runs the program on, once it is proved."""


PLACE = "rattle-kept"
"""The folder next to the kit in which it keeps crates that passed, if it is a kit that keeps any."""


def serves(rt: str) -> bool:
    """Returns whether the kit has the command, keeps what passed, and has a place for it that can be written. Older
    kits     prove everything again at each call: their command names the place nowhere."""
    folder = kit.folder()
    if folder is None:
        return False
    kept = folder.parent / PLACE
    asked = subprocess.run([rt, "--help"], stdin=subprocess.DEVNULL, capture_output=True, text=True)
    keeps = any(PLACE in it.read_text(errors="replace") for it in kit.scripts())
    place = kept if kept.exists() else folder.parent
    return "rt ci " in asked.stdout + asked.stderr and keeps and os.access(place, os.W_OK)


def copied(top: pathlib.Path, to: pathlib.Path, before: dict[str, str]) -> None:
    """Copies what the proof reads, which has these checksums, to a folder of its own, as the top of a repository:
    without the edits that the kit would have to refuse, and without what other commands keep. Changed if a source has
    another checksum."""
    shutil.rmtree(to, ignore_errors=True)
    (to / ".git").mkdir(parents=True)
    names = crates.parts(top)
    (to / crates.LISTS[0]).write_text(crates.listed(top, names))
    shutil.copy2(top / crates.LISTS[1], to)
    for name in names:
        for part in (*crates.PARTS, *(RUNS if name == crates.PROGRAM else ())):
            source = top / "crates" / name / part
            if source.is_dir():
                shutil.copytree(source, to / "crates" / name / part)
            elif source.is_file():
                shutil.copy2(source, to / "crates" / name / part)
    # of the list, the copy has the lines of some crates
    found = {**crates.sums(to), crates.LISTS[0]: crates.sum_of(top / crates.LISTS[0])}
    for name in sorted({*before, *found}):
        if before.get(name) != found.get(name):
            raise record.Changed(name)


def lines_of(said: IO[bytes]) -> Iterator[bytes]:
    """Yields each line as it is written, and an empty one after each second without one."""
    held = b""
    while True:
        if not select.select([said], [], [], 1)[0]:
            yield b""
            continue
        more = os.read(said.fileno(), 1 << 16)
        *whole, held = (held + more).splitlines(keepends=True) or [b""]
        if held.endswith(b"\n") or not more:
            whole, held = [*whole, held], b""
        yield from (line for line in whole if line)
        if not more:
            return


def followed(said: IO[bytes], log: BinaryIO, proof_progress: ProofProgress) -> str | None:
    """Reports each crate when the kit says that it is done, and returns the first whose proof failed, if one did."""
    failed, before = None, []
    for line in lines_of(said):
        log.write(line)
        told = line.decode(errors="replace")
        if kept := KEPT.match(told):
            before.append(kept[1])
            continue
        if before:
            proof_progress.taken(before)
            before = []
        if done := DONE.fullmatch(told):
            proof_progress.done(done[1])
        elif lost := FAILED.match(told):
            failed = failed or lost[1]
    if before:
        proof_progress.taken(before)
    return failed


def prove_all(rt: str, top: pathlib.Path, log: BinaryIO, proof_progress: ProofProgress, before: dict[str, str]) -> None:
    """Proves sources with these checksums, and builds the program; NotProved if a crate fails. However it ends, the
    copy is gone."""
    out = top / "crates" / crates.PROGRAM / "out"
    copy = out / "lanes"
    try:
        copied(top, copy, before)
        with subprocess.Popen(
            [rt, "ci"], cwd=copy, stdin=subprocess.DEVNULL, stdout=subprocess.PIPE, stderr=subprocess.STDOUT
        ) as tool:
            try:
                assert tool.stdout is not None
                failed = followed(tool.stdout, log, proof_progress)
            except BaseException:
                tool.send_signal(signal.SIGTERM)
                raise
        made = copy / "crates" / crates.PROGRAM / "out" / crates.PROGRAM
        if tool.returncode or failed or not made.is_file():
            raise NotProved(failed or crates.PROGRAM)
        os.replace(made, out / crates.PROGRAM)
    finally:
        shutil.rmtree(copy, ignore_errors=True)
