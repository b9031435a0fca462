"""A session of the program for vehicles that are simulated, and its record: that makes the trace, as far as the session
came."""

import pathlib
from typing import TYPE_CHECKING, Any

from ..shared import session

if TYPE_CHECKING:
    from ..shared.session_record import SessionRecord


class Session(session.Session):
    """A session whose requests and answers are recorded, unless that isn't wanted."""

    def __init__(self, program: pathlib.Path | str, scenario: dict[str, Any], records: bool = True) -> None:
        super().__init__(program, scenario)
        self.records = records
        self.record: "SessionRecord"
        self.is_recorded = True
        """Whether the record has all that was asked; not if a call of `tick` was broken off."""
        if records:
            from ..shared import session_record  # takes a while

            self.record = session_record.SessionRecord(scenario)
            for line in self.opened:
                self.record.take(line)

    def tick(self, count: int, before: list[bytes]) -> list[bytes]:
        """Takes ticks after other requests, over the ends of rounds where need be; returns all lines that come."""
        requests: list[bytes] = [*before, *self.rounds.requests(count)]
        lines: list[bytes] = []
        self.is_recorded = False
        for request, answer in zip(requests, self.ask(requests)):
            if self.records:
                self.record.answered(request, answer)
            lines += answer
        self.is_recorded = True
        return lines

    def close(self) -> None:
        """Ends the session at the end of its round, and its program."""
        try:
            if self.is_recorded:
                for answer in self.finish():
                    if self.records:
                        self.record.answered(None, answer)
        finally:
            self.end()

    def save(self, path: pathlib.Path) -> bool:
        """Writes the trace of the rounds that are whole; tells whether there is one."""
        if not self.record.is_over:
            self.record.cut()
        if self.record.number < 1:
            return False
        with open(path, "wb") as out:
            out.writelines(self.record.trace())
        return True
