"""The proved program: where it is, and how it is started and ended. What takes a while is imported where it is needed.

The program runs in a process group of its own: Ctrl-C at the terminal ends the tool, which then ends the program and
all that this has started.
"""

import contextlib
import os
from typing import TYPE_CHECKING, Any, NamedTuple, Self

from .fault import Fault
from .status import Status

if TYPE_CHECKING:
    import asyncio
    import pathlib
    from collections.abc import Callable, Sequence

HERE = os.path.dirname(os.path.dirname(os.path.dirname(os.path.realpath(__file__))))
"""The folder that has the package: `tools` of a checkout, or the one of an installation, which has the program next to
it."""
OWN, FINDER = os.path.join(HERE, "arterial"), os.path.join(HERE, "proved")
"""The program of an installation, and the script that finds the one of a checkout."""
CARRIED = os.path.join(HERE, "arterial", "data", "program", "arterial")
"""The program inside the Python package, if a wheel carries one."""
TRIED = os.path.join(HERE, "tried")
"""The script that finds the unproved program of a checkout."""
MODEL = os.path.join(os.path.dirname(HERE), "model", "program")
"""The model of a checkout: the same commands in plain Python, with which the program is compared (model/README.md)."""
FIND = 'found=$(. "$0" 2>/dev/null) && exec "$found" "$@"; exit 125'
"""A shell script that runs the program which another script finds, which it reads itself: to start one more shell takes
a while."""
NONE_HERE = (125,)
"""The exit status of that script if it doesn't find a program."""
PATIENCE = 10.0
"""Seconds in which a program whose input or output has ended has to end."""
MOST_READ, MOST_SAID = 1 << 16, 500
"""Octets of standard error that are read, and characters of them that are shown."""


class NoProgram(Fault):
    """A program that can be run isn't found; the words say why."""

    def __init__(self, words: str) -> None:
        super().__init__(words, Status.NO_PROGRAM)


class NotProved(NoProgram):
    """This checkout has no program that was proved from its present sources."""


class Died(Fault):
    """The program ended before it had done what was asked: its line, and the tools' status for what it says."""

    def __init__(self, said: str, status: int) -> None:
        how = f"was ended by signal {-status}" if status < 0 else f"ended with status {status}"
        super().__init__(said or f"the program {how}", Status.REFUSED if status == Status.REFUSED else Status.FILE)
        self.program_status = status


class Late(Fault):
    """The program wasn't done in the given time, and was ended."""

    def __init__(self, what: str, seconds: float) -> None:
        super().__init__(f"{what} was not done in {seconds:g} s", Status.FILE)


def found(name: str | None = None) -> "pathlib.Path":
    """Returns the path of the program of this name. The default is the program that ARTERIAL_PROGRAM names, that is
    installed with these tools, that was proved in this checkout, or that is on the path."""
    import pathlib

    return pathlib.Path(path_of(name))


def path_of(name: str | None = None) -> str:
    """Returns the same path as a text."""
    path = os.path.realpath(name or os.environ.get("ARTERIAL_PROGRAM") or usual())
    if not (os.path.isfile(path) and os.access(path, os.X_OK)):
        raise NoProgram(f"no program at {path}")
    return path


def answering(name: str | None, tell: "Callable[[str], object]", is_long: bool = False) -> "pathlib.Path":
    """Returns the path of the program as `found` does. If this checkout hasn't proved one yet, it is that of the
    unproved program, if the launcher has built it; else that of the model, unless that would take too long. `tell` is
    called with a line that says which."""
    try:
        return found(name)
    except NotProved as fault:
        if unproved := tried():
            tell(f"{fault}; until then the unproved program answers")
            return found(unproved)
        if is_long:
            raise NotProved(f"{fault}; `./arterial run SCENARIO` builds one without proofs in a minute") from None
        if not os.path.isfile(MODEL):
            raise
        tell(f"{fault}; until then the model in plain Python answers")
        return found(MODEL)


def tried() -> str | None:
    """Returns the path of the unproved program that was built in this checkout from its present sources, None if it
    isn't there."""
    import subprocess

    if not os.path.isfile(TRIED):
        return None
    asked = subprocess.run([TRIED], capture_output=True, text=True)
    return asked.stdout.rstrip("\n") or None if asked.returncode == 0 else None


def command(*words: str) -> list[str]:
    """Returns the command that runs the program with these words. In a checkout the program is found as the command
    runs, which takes a while: it ends with a status of NONE_HERE if none was proved."""
    if os.environ.get("ARTERIAL_PROGRAM") or os.path.isfile(OWN) or not os.path.isfile(FINDER):
        return [path_of(), *words]
    return ["/bin/sh", "-c", FIND, FINDER, *words]


def usual() -> str:
    """Returns the path of the program if nothing names it."""
    if os.path.isfile(OWN):
        return OWN
    if os.path.isfile(CARRIED):
        return CARRIED
    if os.path.isfile(FINDER):
        import subprocess

        asked = subprocess.run([FINDER], capture_output=True, text=True)
        if asked.returncode:
            fault = NotProved if asked.returncode in NONE_HERE else NoProgram
            raise fault(asked.stderr.strip())
        return asked.stdout.rstrip("\n")
    import shutil

    path = shutil.which("arterial")
    if path is None:
        raise NoProgram("no program arterial is on the path")
    return path


# starting and ending it


class Ran(NamedTuple):
    """The result of a run of the program: its exit status, negative for a signal; its output, unless that went to a
    file; and what it wrote to standard error, as one line."""

    status: int
    out: bytes
    said: str

    def done(self) -> bytes:
        """Returns the output of a program that did what was asked; else raises `Died`."""
        if self.status:
            raise Died(self.said, self.status)
        return self.out


def one_line(octets: bytes) -> str:
    """Returns what a program wrote to standard error as one line."""
    lines = (line.strip() for line in octets[:MOST_READ].decode(errors="replace").splitlines())
    words = "; ".join(line for line in lines if line)
    return words if len(words) <= MOST_SAID else f"{words[:MOST_SAID]}.."


def end_group(pid: int) -> None:
    """Ends a program that `Running` or `live_in_loop` started and whose end wasn't waited for, with all it started."""
    import signal

    with contextlib.suppress(ProcessLookupError, PermissionError):
        os.killpg(pid, signal.SIGKILL)


class Running:
    """The program while it runs. Leaving the context ends it."""

    def __init__(self, words: "Sequence[str | os.PathLike[str]]", given: Any = None, out: Any = None) -> None:
        """Starts a command. `given` and `out` are open files; None means a pipe."""
        import subprocess  # takes a while

        pipe = subprocess.PIPE
        self.process = subprocess.Popen(
            words, stdin=pipe if given is None else given, stdout=pipe if out is None else out, stderr=pipe,
            bufsize=0, start_new_session=True,
        )  # fmt: skip

    def __enter__(self) -> Self:
        return self

    def __exit__(self, *_: object) -> None:
        self.end()

    def ended(self, text: bytes | None = None, seconds: float | None = None) -> Ran:
        """Gives it a text, waits for its end, and returns what came; TimeoutError if it isn't done in time."""
        import subprocess

        try:
            out, said = self.process.communicate(text, seconds)
        except subprocess.TimeoutExpired:
            raise TimeoutError from None
        finally:
            self.end()
        return Ran(self.process.returncode, out or b"", one_line(said))

    def closed(self) -> Ran:
        """Waits a while for the end of a program that has closed its output or its input, and returns its result."""
        import subprocess

        with contextlib.suppress(subprocess.TimeoutExpired):
            self.process.wait(PATIENCE)
        said = b""
        if self.process.stderr is not None and not self.process.stderr.closed:
            os.set_blocking(self.process.stderr.fileno(), False)
            said = self.process.stderr.read(MOST_READ) or b""
        self.end()
        return Ran(self.process.returncode, b"", one_line(said))

    def died(self) -> Died:
        """Returns why a program has closed its output or its input."""
        it = self.closed()
        return Died(it.said, it.status)

    def output(self) -> int:
        """Returns the descriptor of the pipe that has its output."""
        assert self.process.stdout is not None
        return self.process.stdout.fileno()

    def input(self) -> int:
        """Returns the descriptor of the pipe to its input."""
        assert self.process.stdin is not None
        return self.process.stdin.fileno()

    def end_input(self) -> None:
        """Ends its input."""
        assert self.process.stdin is not None
        self.process.stdin.close()

    def end(self) -> None:
        """Ends it, if it hasn't ended."""
        if self.process.returncode is None:
            end_group(self.process.pid)
            self.process.wait()
        for stream in (self.process.stdin, self.process.stdout, self.process.stderr):
            if stream is not None:
                stream.close()


def ran(
    program: "pathlib.Path | str", *words: str, given: Any = b"", out: Any = None, seconds: float | None = None
) -> Ran:
    """Runs the program to its end. `given` is a text or an open file, `out` an open file in place of the output that is
    returned. `Late` is raised if it isn't done in time."""
    text = given if isinstance(given, bytes) else None
    with Running([program, *words], None if text is not None else given, out) as running:
        try:
            return running.ended(text, seconds)
        except TimeoutError:
            assert seconds is not None
            raise Late(words[0], seconds) from None


def trace_of(program: "pathlib.Path | str", scenario: bytes, out: Any = None) -> bytes:
    """Returns the trace of a scenario, both as bytes; with `out` it goes there."""
    return ran(program, "run", given=scenario, out=out).done()


def live(program: "pathlib.Path | str") -> Running:
    """Starts a session of the program."""
    return Running([program, "live"])


async def live_in_loop(program: "pathlib.Path | str") -> "asyncio.subprocess.Process":
    """Starts a session of the program for callers in a loop of asyncio."""
    import asyncio

    pipe = asyncio.subprocess.PIPE
    return await asyncio.create_subprocess_exec(
        program, "live", stdin=pipe, stdout=pipe, stderr=pipe, start_new_session=True
    )
