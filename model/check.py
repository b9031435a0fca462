"""Whether a text is a trace; else its first fault.

docs/TRACE.md, "Checking a trace". Each line is compared with the one that is expected after the lines before it, whose
journals are used.
"""

from model.lines import head, is_line, runs_of
from model.run import JournalDue, Run, Runs
from model.scenario_read import content, read_value
from model.shapes import Refused

MOST_TEXT = 67_108_864
RULES = {b"J": 5, b"F": 6, b"A": 7, b"L": 8, b"M": 9}


class Fault(Exception):
    """The first fault of a text: the line, and the rule that it breaks."""

    def __init__(self, line: int, rule: int) -> None:
        super().__init__(f"line {line} breaks rule {rule}")


class Text:
    """A text that is gone through line by line."""

    def __init__(self, data: bytes) -> None:
        self.data = data
        self.at = 0
        self.line = 0

    def next(self) -> bytes:
        """Returns the next line without its newline."""
        self.line += 1
        if self.at == len(self.data):
            raise Fault(self.line, 10)
        end = self.data.find(b"\n", self.at)
        piece = self.data[self.at : len(self.data) if end < 0 else end]
        if end < 0 or not is_line(piece):
            raise Fault(self.line, 2)
        self.at = end + 1
        return piece

    def expect(self, due: bytes) -> None:
        """Reads a line, which must be the expected one."""
        read = self.next()
        if read != due:
            raise Fault(self.line, RULES.get(due[:1], 4) if head(read) == head(due) else 4)

    def journal(self, due: JournalDue) -> Runs:
        """Reads a J line, which must be allowed here, and returns its journal."""
        read = self.next()
        if head(read) != [b"J", b"%d" % due.cabinet]:
            raise Fault(self.line, 4)
        runs = runs_of(read)
        if not due.is_merge(runs):
            raise Fault(self.line, 5)
        return runs


def opened(text: Text) -> Run:
    """Returns the run of the scenario in the first line."""
    first = text.next()
    if first[:2] != b"S ":
        raise Fault(1, 3)
    try:
        run = Run(content(read_value(first[2:])))
    except Refused:
        raise Fault(1, 3) from None
    if run.scenario.compact != first[2:]:
        raise Fault(1, 3)
    return run


def check(data: bytes) -> Run:
    """Returns the run that a text is the trace of; else its first fault is raised."""
    if len(data) > MOST_TEXT:
        raise Fault(0, 1)
    return gone_through(Text(data))


def gone_through(text: Text) -> Run:
    """Returns the run of a text that is not too long; else its first fault is raised."""
    run = opened(text)
    due, given = run.lines(), None
    next(due)
    while True:
        try:
            told = due.send(given)
        except StopIteration:
            break
        given = text.journal(told) if isinstance(told, JournalDue) else None
        if given is None:
            text.expect(told)
    if text.at < len(text.data):
        raise Fault(text.line + 1, 11)
    return run
