"""Opens a trace, and lets the proved program check it meanwhile."""

import io
import os
import sys
from collections.abc import Callable

from ..shared.fault import Fault
from ..shared.trace_records import NotATrace
from ..shared.trace_reader import TraceReader
from .checking import Check

AT_ONCE = 1 << 20


class Source(io.FileIO):
    """A file to read, whose faults tell its name."""

    def __init__(self, name):
        super().__init__(name or sys.stdin.fileno(), closefd=bool(name))
        self.called = name or "standard input"

    def readinto(self, room):
        """Reads some bytes."""
        try:
            return super().readinto(room)
        except OSError as fault:
            raise OSError(fault.errno, fault.strerror, self.called) from None


def kept(source):
    """Returns a file with the content of a source that can't be read twice, as a pipe."""
    import tempfile

    file = tempfile.TemporaryFile()
    while octets := source.read(AT_ONCE):
        file.write(octets)
    file.seek(0)
    return file


class Checked(TraceReader):
    """Reads a trace while it is checked; without a check the trace is taken as far as its lines go."""

    def __init__(self, stream, advance, check):
        self.check = check
        super().__init__(stream, advance)

    def answered(self):
        """Waits for the answer of the check; what is shown while the trace is read must come after it."""
        if self.check:
            self.check.told()

    def finish(self):
        """Makes sure that the trace was complete, and that the check accepted it."""
        self.answered()
        if not self.whole:
            raise Fault(f"line {self.line} is not a line of a trace: the trace ends before its Z line")


def read(name: str | None, is_checked: bool, show: Callable[["Checked"], object]) -> None:
    """Opens a trace, and lets it be shown. A terminal shows a bar, after a second. If the text can't be shown, the
    fault that it isn't a trace is reported first."""
    stream, called = text(name, is_checked)
    check = shown = None
    try:
        check = Check(stream, called) if is_checked else None
        shown = bar_of(stream)
        try:
            show(Checked(stream, shown.update if shown else None, check))
        except (NotATrace, Fault):
            if check:
                check.told()
            raise
    finally:
        if shown:
            shown.close()
        if check:
            check.end()
        stream.close()


def bar_of(stream):
    """Returns a bar on a terminal, None elsewhere."""
    if not sys.stderr.isatty():
        return None
    from ..shared.progress import bar

    return bar(os.fstat(stream.fileno()).st_size or None, "B", unit_scale=True, delay=1)


def text(name, is_twice):
    """Opens a text, and returns it with its name in messages; one that can be read twice if that is asked for."""
    try:
        source = Source(None if name == "-" else name)
    except OSError as fault:
        from ..shared.status import Status

        raise Fault(f"{name or 'standard input'}: {fault.strerror}", Status.FILE) from None
    stream = io.BufferedReader(source, AT_ONCE)
    if stream.seekable() or not is_twice:
        return stream, source.called
    with stream:
        return kept(stream), source.called
