"""Carries a command out by the unproved program, which the kit builds with run-time checks. The first call builds and
keeps it (keeping.py). If it can't be kept, the kit builds and runs it at each call.

Such a run has limits of the kit: 64 MiB of input, 1 MiB of output, a minute of time. An answer is complete, or there is
none.
"""

import io
import os
import re
import signal
import subprocess
import sys
import tempfile
from typing import IO, cast

from streettools import words
from streettools.shared.progress import waiting
from streettools.shared.saying import say
from streettools.shared.status import Status

from . import crates, due, help, hint, keeping, kit, overlap, refused, source

READERS = ("run", "check", "overlaps", "judge", "band", "respond")
"""Commands that read standard input."""

NO_TRACE, NO_OVERLAP, REFUSED = 5, 7, 2
"""The statuses of the program if a text isn't a trace, and if a scenario or a field file is invalid."""

MOST_INPUT = (64 << 20) - 1
SECONDS = 60
USUAL = 60
"""How many seconds such a call takes, roughly: two thirds of it go to the compiler."""

ENDED = re.compile(rb"^run=ended status=(\d+) .*proved=no$", re.M)
OWN = re.compile(rb"^(?:interpreter|checked|races|run=)", re.M)
"""Where the kit's own lines begin, after those of the program."""

WAY = "./arterial prove (or ./test) proves the program here, which has no such limit"
LIMITS = (
    (rb"wrote more than \d+ bytes", f"the answer is longer than 1 MiB, which an unproved run can't give. {WAY}"),
    (rb"did not end within the time limit", f"the answer takes longer than {SECONDS} seconds unproved. {WAY}"),
)
"""What the kit prints if a limit ended the run, and what is printed here instead."""


class Unfinished(Exception):
    """The run gave no answer; the words say why, with its exit status."""

    def __init__(self, why: str, status: Status = Status.UNFINISHED) -> None:
        super().__init__(why)
        self.status = status


def given(stream: io.BufferedReader, to: IO[bytes]) -> None:
    """Copies standard input to a file, to its end: the kit itself does not wait for it."""
    size = 0
    while part := stream.read1(1 << 20):
        size += len(part)
        if size > MOST_INPUT:
            raise Unfinished(f"the input is longer than 64 MiB, which an unproved run can't read. {WAY}")
        to.write(part)
    to.seek(0)


def ran(rt: str, arguments: list[str], stdin: IO[bytes], stdout: IO[bytes]) -> tuple[int, bytes]:
    """Runs the program and returns its exit status and what it wrote to standard error; its output goes to a file."""
    command = [rt, "try", "--seconds", str(SECONDS), "--", *arguments]
    folder = crates.TOP / "crates" / crates.PROGRAM
    with subprocess.Popen(command, cwd=folder, stdin=stdin, stdout=stdout, stderr=subprocess.PIPE) as tool, waiting(
        USUAL
    ):
        try:
            said = tool.communicate()[1]
        except BaseException:
            tool.send_signal(signal.SIGTERM)
            raise
    ended, own = ENDED.search(said), OWN.search(said)
    if ended and own and int(ended[1]) == tool.returncode:
        return tool.returncode, said[: own.start()]
    raise Unfinished(*why_not(said))


def why_not(said: bytes) -> tuple[str, Status]:
    """Returns why a run gave no answer, by what the kit said, and the exit status."""
    for limit, words_of_it in LIMITS:
        if re.search(limit, said):
            return words_of_it, Status.UNFINISHED
    fault = re.search(rb"^checked: (fault.*)", said, re.M)
    if fault:
        return f"a run-time check of the program failed: {fault[1].decode(errors='replace')}", Status.UNFINISHED
    lines = said.decode(errors="replace").strip().splitlines()
    errors = [it for it in lines if re.match(r"rt: |(?:.*[: ])?error[:\[]", it)] or lines[-5:]
    return "the program does not compile:\n" + "\n".join(errors[:10]), Status.NO_PROGRAM


def answer(rt: str, arguments: list[str]) -> int:
    """Prints the program's answer, and returns its status."""
    with tempfile.TemporaryFile() as stdin, tempfile.TemporaryFile() as stdout:
        if arguments[0] in READERS:
            given(cast(io.BufferedReader, sys.stdin.buffer), stdin)
        status, said = ran(rt, arguments, stdin, stdout)
        stdout.seek(0)
        sys.stderr.buffer.write(said)
        sys.stderr.flush()
        if status == 1:
            print(hint.of(arguments), file=sys.stderr)
        elif status == NO_TRACE and arguments[0] == "check":
            stdin.seek(0)
            due.tell("", stdin.read(), said.decode())
        elif status == NO_OVERLAP and arguments[0] == "overlaps":
            stdin.seek(0)
            overlap.show(said.decode(), arguments[1:], stdin)
        elif status == REFUSED:
            stdin.seek(0)
            refused.show(arguments[0], stdin.read(MOST_INPUT), said.decode())
        return written(stdout.read(), status)


def written(output: bytes, status: int) -> int:
    """Writes the program's output, and returns the exit status: that of a write fault if it can't be written."""
    try:
        sys.stdout.buffer.write(output)
        sys.stdout.flush()
    except OSError as fault:
        if not isinstance(fault, BrokenPipeError):
            print("write fault", file=sys.stderr)
        os.dup2(os.open(os.devnull, os.O_WRONLY), sys.stdout.fileno())
        return 4
    return status


def known(arguments: list[str]) -> int | None:
    """Gives an answer that can be read from the source, and returns its status; None if a run is needed."""
    if arguments == ["--version"] and (text := source.version(crates.TOP)):
        say("arterial", help.FROM_SOURCE)
        sys.stdout.write(text)
        return Status.DONE
    names = [*words.PROGRAM, "--help", "--version"]
    if (not arguments or arguments[0] not in names) and (text := source.usage(crates.TOP)):
        print(text, hint.of(arguments), sep="\n", file=sys.stderr)
        return 1
    return None


def main(given: list[str]) -> int:
    """Answers the words after the first, which says why a proved program isn't there."""
    why, *arguments = given
    status = known(arguments)
    if status is not None:
        return status
    rt = kit.command()
    if not rt:
        path = os.environ.get("PATH", "")
        say(
            "arterial",
            f"{why}, and the Rattle kit's command rt is not on the path ({path}): README.md says under Start what is "
            "needed",
        )
        return Status.NO_PROGRAM
    say(
        "arterial",
        f"{why}: the unproved program answers; building it takes about a minute (./arterial prove proves it here)",
    )
    try:
        if not os.environ.get("ARTERIAL_BUILT") and keeping.keep(rt):
            os.environ["ARTERIAL_BUILT"] = "1"
            os.execv(crates.TOP / "arterial", [str(crates.TOP / "arterial"), *arguments])
        return answer(rt, arguments)
    except keeping.NotBuilt as fault:
        words_of_it, status = why_not(fault.args[0])
        say("arterial", words_of_it)
        return status
    except Unfinished as fault:
        say("arterial", fault)
        return fault.status
