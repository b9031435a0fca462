"""`./arterial prove`: proves and builds the program, records it, and removes what the proofs left."""

import argparse
import contextlib
import fcntl
import os
import pathlib
import re
import shutil
import signal
import subprocess
import sys
import time
from collections.abc import Iterator
from typing import BinaryIO

from streettools.shared.commandline import Parser
from streettools.shared.saying import say
from streettools.shared.status import Status

from . import at_once, crates, kit, lanes, record
from .proof_progress import ProofProgress

LEAST = 15 * 10**9
"""Bytes of the disk that the proofs of all crates take while they run, and some to spare."""

LEFT = (crates.PROGRAM, "proved", "build.log", ".building")
"""What stays in the program's own folder out/."""


class Failed(Exception):
    """The program can't be proved or built, in words."""


def parser() -> argparse.ArgumentParser:
    """Returns the reader of the options of `prove`."""
    words = Parser(
        "prove",
        description="Proves everything that the program depends on, and builds it. If interrupted, the next call "
        "continues; of two calls at once one proves and the other waits. It takes about 25 minutes on four processors, "
        "and 15 GB of disk while it runs.",
        epilog="example: ./arterial prove && ./arterial run scenarios/one-cabinet.json",
    )
    words.add_argument(
        "--keep",
        action="store_true",
        help="keep in crates/*/out what speeds up proofs after an edit; this takes longer",
    )
    return words


def is_proved(top: pathlib.Path) -> bool:
    """Tells whether the program is there, proved from the sources as they stand."""
    return subprocess.run([top / "tools/proved"], capture_output=True).returncode == 0


def is_taken(top: pathlib.Path) -> bool:
    """Returns whether the proof that is there was made elsewhere and taken over."""
    return (record.program_of(top).parent / "proved/maker").exists()


def size_of(folder: pathlib.Path) -> int:
    """Returns how many bytes the files below a folder take."""
    found = 0
    for at, _, names in os.walk(folder):
        for name in names:
            with contextlib.suppress(OSError):
                found += os.lstat(os.path.join(at, name)).st_blocks * 512
    return found


def look_around(top: pathlib.Path) -> str:
    """Returns the command rt; Failed where something that the proofs need is missing."""
    rt = kit.command()
    if not rt:
        path = os.environ.get("PATH", "")
        raise Failed(
            f"the Rattle kit's command rt is not on the path ({path}): README.md says under Start what is needed"
        )
    out = top / "crates" / crates.PROGRAM / "out"
    try:
        out.mkdir(exist_ok=True)
        (out / ".building").touch()
    except OSError as fault:
        raise Failed(
            f"{fault.filename} can't be written ({fault.strerror}): a proof needs a checkout that it can write to"
        ) from None
    free = shutil.disk_usage(out).free
    if free < LEAST:
        kept = sum(size_of(it) for it in top.glob("crates/*/out"))
        if free + kept < LEAST:
            raise Failed(
                f"{free / 1e9:.0f} GB of the disk are free at {top}, and the proofs need {LEAST / 1e9:.0f} while they "
                "run"
            )
    return rt


@contextlib.contextmanager
def alone(top: pathlib.Path) -> Iterator[None]:
    """Waits until no other call proves here, and keeps others waiting."""
    with open(top / "crates" / crates.PROGRAM / "out/.building", "r+b") as it:
        try:
            fcntl.flock(it, fcntl.LOCK_EX | fcntl.LOCK_NB)
        except BlockingIOError:
            say("arterial", "another call proves the program: waiting for it")
            fcntl.flock(it, fcntl.LOCK_EX)
        yield


def build(rt: str, top: pathlib.Path, log: BinaryIO) -> None:
    """Proves and builds the program's own crate over the libraries; NotProved where that fails."""
    folder, jobs = top / "crates" / crates.PROGRAM, len(os.sched_getaffinity(0))
    words = [rt, "run", "--jobs", str(min(jobs, lanes.MOST_JOBS)), "--", "run"]
    with open(folder / "stdin", "rb") as given, subprocess.Popen(
        words, cwd=folder, stdin=given, stdout=log, stderr=log
    ) as tool:
        try:
            status = tool.wait()
        except BaseException:
            tool.send_signal(signal.SIGTERM)
            raise
    if status:
        raise lanes.NotProved(crates.PROGRAM)


def why_of(log: pathlib.Path) -> str:
    """Returns the lines of the log that say why something failed."""
    lines = log.read_text(errors="replace").splitlines()
    errors = [it for it in lines if re.search(r"(^|[: ])error[:\[]|: failed|: not proved", it)]
    return "\n".join(errors[:20] or lines[-20:])


def prove(rt: str, top: pathlib.Path, keep: bool) -> None:
    """Proves and builds the program, and records it."""
    log = record.program_of(top).parent / "build.log"
    before = crates.sums(top)
    try:
        with open(log, "wb", buffering=0) as out, ProofProgress(crates.parts(top), top) as proof_progress:
            if keep or not at_once.serves(rt):
                lanes.prove_all(rt, top, out, proof_progress, keep)
                build(rt, top, out)
                proof_progress.done(crates.PROGRAM)
            else:
                at_once.prove_all(rt, top, out, proof_progress, before)
        record.write(top, before, log.read_text(errors="replace"))
    except lanes.NotProved as name:
        raise Failed(
            f"the program could not be built, since {name} failed:\n{why_of(log)}\narterial: all that was said is in "
            f"{log}"
        ) from None
    except record.Changed as name:
        raise Failed(f"{name} changed while it was proved: call ./arterial prove again") from None


def tidy(top: pathlib.Path) -> None:
    """Removes what the proofs left, but not where another of the kit's commands is at work."""
    for crate in crates.parts(top):
        folder = top / "crates" / crate
        held = os.open(folder, os.O_RDONLY)
        try:
            fcntl.flock(held, fcntl.LOCK_EX | fcntl.LOCK_NB)
            kept = LEFT if crate == crates.PROGRAM else ()
            for it in (folder / "out").glob("*") if (folder / "out").is_dir() else ():
                if it.name not in kept:
                    shutil.rmtree(it) if it.is_dir() and not it.is_symlink() else it.unlink()
        except BlockingIOError:
            pass
        finally:
            os.close(held)


def confirm(top: pathlib.Path, makers: str) -> None:
    """Reports whether the program that was proved here is the one that was taken over, by their checksums."""
    own = crates.sum_of(record.program_of(top))
    if own == makers:
        say("arterial", "confirmed: the program that was proved here is its maker's, byte for byte")
    else:
        say("arterial", f"the program that was proved here ({own}) differs from its maker's ({makers}): it is used now")


def main(given: list[str]) -> int:
    """Proves the program, and returns the exit status."""
    words = parser().parse_args(given)
    top, begun = crates.TOP, time.monotonic()
    signal.signal(signal.SIGTERM, lambda number, _: sys.exit(128 + number))
    try:
        if is_proved(top) and not is_taken(top):
            say("arterial", f"proved already, and nothing has changed since: {record.program_of(top)}")
            return Status.DONE
        rt = look_around(top)
        with alone(top):
            if not is_proved(top) or is_taken(top):
                makers = crates.sum_of(record.program_of(top)) if is_taken(top) and is_proved(top) else None
                prove(rt, top, words.keep)
                if makers:
                    confirm(top, makers)
                if not words.keep:
                    tidy(top)
    except Failed as fault:
        say("arterial", fault)
        return Status.NO_PROGRAM
    except KeyboardInterrupt:
        say("arterial", "interrupted: finished crates are kept, and ./arterial prove continues")
        return Status.INTERRUPTED
    say("arterial", f"proved and built in {(time.monotonic() - begun) / 60:.0f} minutes: {record.program_of(top)}")
    return Status.DONE
