"""The command `live`: it reads lines, and answers each before the next is read.

docs/LIVE.md, "Answers" and "How a session ends".
"""

from collections.abc import Callable, Iterator
from dataclasses import dataclass

from model.requests import LONGEST_LINE
from model.scenario_read import MOST_BYTES
from model.session import Session, session_scenario


@dataclass(frozen=True)
class Line:
    """A line without its newline, and whether it had one."""

    octets: bytes
    is_ended: bool


class Lines:
    """Lines out of pieces of input. Of a line that is too long, one byte more is kept than it may have."""

    def __init__(self, read: Callable[[], bytes]) -> None:
        self.read = read
        self.held = bytearray()

    def next(self, most: int) -> Line:
        """Returns the next line, which has at most `most` bytes; at the end of input, the incomplete rest of one."""
        seen = 0
        while (end := self.held.find(b"\n", seen)) < 0:
            del self.held[most + 1 :]
            seen = len(self.held)
            piece = self.read()
            if not piece:
                return Line(bytes(self.held), False)
            self.held += piece
        line = bytes(self.held[: min(end, most + 1)])
        del self.held[: end + 1]
        return Line(line, True)


def live(read: Callable[[], bytes]) -> Iterator[bytes]:
    """Yields the answer to each line of the input in turn, as soon as it has come; one that refuses the scenario is
    raised. A piece of the input is read when all lines that came are answered."""
    lines = Lines(read)
    session = Session(session_scenario(lines.next(MOST_BYTES).octets))
    yield text_of(session.open())
    while not session.is_over:
        line = lines.next(LONGEST_LINE)
        yield text_of(session.answer(line.octets) if line.is_ended else session.end())


def text_of(answer: Iterator[bytes]) -> bytes:
    """Returns the text of an answer, with the dot after it."""
    return b"".join(line + b"\n" for line in answer) + b".\n"
