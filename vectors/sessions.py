"""Dialogues of `live` and what is due for each; sessions whose input comes in pieces, or from a client that waits."""

import os
import pathlib
import subprocess
import sys
import tempfile
import threading
from typing import NamedTuple

sys.dont_write_bytecode = True

from running import HERE, SECONDS  # noqa: E402

DOT = b".\n"


class Dialogue(NamedTuple):
    """A dialogue: its name, the input, the output due, the status due and the line on standard error."""

    name: str
    given: bytes
    due: bytes
    status: int = 0
    said: bytes = b""


class Ended(NamedTuple):
    """How a session ended: its status, what was written and what was said."""

    status: int
    written: bytes
    said: bytes


def dialogue_of(file: pathlib.Path) -> Dialogue:
    """Returns the dialogue of a file; where a refusal stands beside it, that is due."""
    given, due = file.read_bytes(), file.with_suffix(".answer").read_bytes()
    refusal = file.with_suffix(".refusal")
    if not refusal.exists():
        return Dialogue(file.stem, given, due)
    status, line = refusal.read_bytes().rstrip(b"\n").split(b"\n")
    return Dialogue(file.stem, given, due, int(status), line + b"\n")


def dialogues() -> list[Dialogue]:
    """Returns the dialogues of vectors/live, and those that are shown in scenarios/."""
    files = [*sorted((HERE / "live").glob("*.dialogue")), *sorted((HERE.parent / "scenarios").glob("*.dialogue"))]
    return [dialogue_of(file) for file in files]


def blocks(output: bytes) -> list[bytes]:
    """Returns the answers of an output, each with its dot."""
    found = [b""]
    for line in output.splitlines(keepends=True):
        found[-1] += line
        if line == DOT:
            found.append(b"")
    return found[:-1]


def front_due(dialogue: Dialogue, count: int) -> bytes:
    """Returns what must be written once so many bytes of the input were read and its end was not."""
    lines = dialogue.given[:count].count(b"\n")
    return b"".join(blocks(dialogue.due)[:lines])


def started(program: pathlib.Path, **more) -> subprocess.Popen:
    """Starts a session with pipes on all sides, where nothing else is named."""
    pipe = subprocess.PIPE
    return subprocess.Popen([program, "live"], **{"stdin": pipe, "stdout": pipe, "stderr": pipe, "bufsize": 0, **more})


def ended(session: subprocess.Popen, written: bytes) -> Ended:
    """Waits for the end of a session whose input has ended."""
    written += session.stdout.read()
    said = session.stderr.read()
    for stream in (session.stdout, session.stderr):
        stream.close()
    return Ended(session.wait(timeout=SECONDS), written, said)


def feed(session: subprocess.Popen, given: bytes, size: int) -> None:
    """Writes an input in pieces of a size and ends it; a session may be over before."""
    try:
        for at in range(0, len(given), size):
            session.stdin.write(given[at : at + size])
    except BrokenPipeError:
        pass
    finally:
        session.stdin.close()


def in_pieces(program: pathlib.Path, given: bytes, size: int) -> Ended:
    """Holds a session whose input is written in pieces of a size, one write each."""
    session = started(program)
    writer = threading.Thread(target=feed, args=(session, given, size))
    writer.start()
    answer = ended(session, b"")
    writer.join()
    return answer


def behind(made: pathlib.Path, program: pathlib.Path, given: bytes, names: dict[str, int]) -> tuple[bool, Ended]:
    """Holds a session on a file behind the library of failing calls, which reads the names. Returns whether a call
    failed, and how the session ended."""
    told, telling = os.pipe()
    words = {"LD_PRELOAD": str(made), "TOLD": str(telling), **{name: str(value) for name, value in names.items()}}
    with tempfile.TemporaryFile() as file, open(told, "rb") as reader:
        file.write(given)
        file.seek(0)
        try:
            session = started(program, stdin=file, pass_fds=(telling,), env={**os.environ, **words})
            answer = ended(session, b"")
        finally:
            os.close(telling)
        return reader.read() != b"", answer


class Client:
    """A client that waits for each answer before it writes again."""

    def __init__(self, program: pathlib.Path) -> None:
        self.session = started(program)
        self.reader = os.fdopen(os.dup(self.session.stdout.fileno()), "rb")

    def answer(self) -> bytes:
        """Returns the next answer with its dot; what there is where the output ends before."""
        lines = []
        while line := self.reader.readline():
            lines.append(line)
            if line == DOT:
                break
        return b"".join(lines)

    def ask(self, request: bytes, size: int = 1 << 30) -> bytes:
        """Writes a request, in pieces of a size, and returns its answer."""
        for at in range(0, len(request), size):
            self.session.stdin.write(request[at : at + size])
        return self.answer()

    def memory(self) -> dict[str, int]:
        """Returns the resident memory of the program in KiB: the most until now, and that of now."""
        lines = pathlib.Path(f"/proc/{self.session.pid}/status").read_text().splitlines()
        found = (line.split() for line in lines if line.startswith(("VmHWM", "VmRSS")))
        return {words[0].rstrip(":"): int(words[1]) for words in found}

    def close(self) -> Ended:
        """Ends the input, and returns how the session ended, with what was written since the last answer."""
        self.session.stdin.close()
        written = self.reader.read()
        self.reader.close()
        return ended(self.session, written)
