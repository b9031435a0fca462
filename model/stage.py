"""The download stage: what a begin, a part, a verify and a finish are answered.

docs/DEFINITIONS.md, "Downloads"; docs/SCENARIO.md, "What is sent in a round".
"""

from dataclasses import dataclass
from enum import Enum

from model.cells import Cell, Value
from model.rules import Broken, first_broken
from model.tables import Tables


class Answer(Enum):
    """The answers of the stage, by their codes as outcomes in the agent."""

    STAGED = 1
    REPEATED = 2
    VERIFIED = 3
    ACCEPTED = 4
    WRONG_TOKEN = 5
    WRONG_PART = 6
    NOT_VERIFIED = 7
    REFUSED = 8


class Standing(Enum):
    """Where a download stands, by the codes of the agent."""

    NORMAL = 1
    OPEN = 2
    VERIFIED = 3
    DONE = 6


@dataclass(frozen=True)
class Outcome:
    """An answer; with WRONG_PART the part that is expected, with REFUSED the rule that is broken."""

    answer: Answer
    expected: int = 0
    broken: Broken | None = None


class Stage:
    """The greatest id begun, the number of parts taken, and the staged tables."""

    def __init__(self) -> None:
        self.kept = 0
        self.taken = 0
        self.staged: Tables | None = None
        self.standing = Standing.NORMAL
        self.last: Outcome | None = None

    def tell(self, outcome: Outcome) -> Outcome:
        """Keeps the last answer and returns it."""
        self.last = outcome
        return outcome

    def begin(self, number: int, in_force: Tables) -> Outcome:
        """Begins a download with a greater id than any before: its tables are those in force."""
        if number == self.kept:
            return self.tell(Outcome(Answer.REPEATED))
        if number < self.kept:
            return self.tell(Outcome(Answer.WRONG_TOKEN))
        self.kept, self.taken, self.staged, self.standing = number, 0, in_force, Standing.OPEN
        return self.tell(Outcome(Answer.STAGED))

    def part(self, number: int, k: int, cells: list[tuple[Cell, Value]]) -> Outcome:
        """Takes the next part of the open download: its cells are put in order."""
        if number != self.kept:
            return self.tell(Outcome(Answer.WRONG_TOKEN))
        if k <= self.taken:
            return self.tell(Outcome(Answer.REPEATED))
        if self.standing is not Standing.OPEN or k != self.taken + 1:
            return self.tell(Outcome(Answer.WRONG_PART, expected=self.taken + 1))
        self.taken, self.staged = k, self.staged.with_cells(cells)
        return self.tell(Outcome(Answer.STAGED))

    def verify(self, number: int, total: int, in_force: Tables, is_flashing: bool) -> Outcome:
        """Judges the staged tables once all parts are there."""
        if number != self.kept:
            return self.tell(Outcome(Answer.WRONG_TOKEN))
        if self.standing in (Standing.VERIFIED, Standing.DONE):
            return self.tell(Outcome(Answer.REPEATED))
        if total != self.taken:
            return self.tell(Outcome(Answer.WRONG_PART, expected=self.taken + 1))
        if broken := first_broken(self.staged, in_force, is_flashing):
            return self.tell(Outcome(Answer.REFUSED, broken=broken))
        self.standing = Standing.VERIFIED
        return self.tell(Outcome(Answer.VERIFIED))

    def finish(self, number: int, in_force: Tables, is_flashing: bool) -> Outcome:
        """Judges the verified tables again; where they keep the rules they are to be put in force."""
        if number != self.kept:
            return self.tell(Outcome(Answer.WRONG_TOKEN))
        if self.standing is Standing.DONE:
            return self.tell(Outcome(Answer.REPEATED))
        if self.standing is not Standing.VERIFIED:
            return self.tell(Outcome(Answer.NOT_VERIFIED))
        if broken := first_broken(self.staged, in_force, is_flashing):
            self.standing = Standing.OPEN
            return self.tell(Outcome(Answer.REFUSED, broken=broken))
        self.standing = Standing.DONE
        return self.tell(Outcome(Answer.ACCEPTED))
