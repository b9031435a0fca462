"""What a check finds: what the program refuses, what it takes and people will regret, and what was looked at in
vain."""

import enum
from dataclasses import asdict, dataclass
from typing import Any

from ..shared.saying import visible


class Level(enum.Enum):
    """How much a finding weighs."""

    ERROR = "error"
    """The program refuses it, or a sheet isn't accepted."""
    WARNING = "warning"
    """The program accepts it, but it is hardly ever meant."""
    NOTE = "note"
    """Something to know."""


class Rank(enum.Enum):
    """How much a warning matters."""

    DANGEROUS = "dangerous"
    """People may be hurt: movements that cross, times that are too short for the street."""
    MISTAKE = "probably a mistake"
    """The plan does something else than what its author meant."""
    LOOK = "worth a look"
    """Unusual, or close to a limit."""


@dataclass(frozen=True)
class Finding:
    """A finding: where, in words; and the rule, the program's line and the place in the file, if there are any. A
    warning has a rank. `is_cause` means that errors may follow from it, so that it is shown before them."""

    level: Level
    where: str
    words: str
    rule: int | None = None
    line: str | None = None
    place: str | None = None
    rank: Rank | None = None
    is_cause: bool = False

    def __str__(self) -> str:
        head = ", ".join(filter(None, (self.place, self.where)))
        level = self.level.value + (f", rule {self.rule}" if self.rule else "")
        level += f" ({self.rank.value})" if self.rank else ""
        return visible(f"{head}: {level}: {self.words}" if head else f"{level}: {self.words}")

    def as_json(self) -> dict[str, Any]:
        """Returns the finding as an object of JSON."""
        said = {name: it for name, it in asdict(self).items() if it is not None and name != "is_cause"}
        return {name: it.value if isinstance(it, enum.Enum) else it for name, it in said.items()}


def warn(where: str, words: str, rank: Rank = Rank.MISTAKE, is_cause: bool = False) -> Finding:
    """Returns a warning."""
    return Finding(Level.WARNING, where, words, rank=rank, is_cause=is_cause)


def note(where: str, words: str) -> Finding:
    """Returns a note."""
    return Finding(Level.NOTE, where, words)


def in_order(findings: list[Finding]) -> list[Finding]:
    """Returns findings as they are shown: the causes of errors, errors, warnings by rank, notes."""
    is_refused = any(it.level is Level.ERROR for it in findings)

    def place(it: Finding) -> tuple[bool, int, int]:
        rank = list(Rank).index(it.rank) if it.rank else 0
        return not (is_refused and it.is_cause), list(Level).index(it.level), rank

    return sorted(findings, key=place)


def ranked(findings: list[Finding]) -> str:
    """Returns how many warnings there are of each rank, in brackets; nothing if there aren't any."""
    counts = [(sum(it.rank is rank for it in findings), rank.value) for rank in Rank]
    words = ", ".join(f"{count} {rank}" for count, rank in counts if count)
    return f" ({words})" if words else ""


def counted(findings: list[Finding]) -> str:
    """Returns the verdict, and how many there are of each level."""
    words = []
    for level, one, more in (
        (Level.ERROR, "error", "errors"),
        (Level.WARNING, "warning", "warnings"),
        (Level.NOTE, "note", "notes"),
    ):
        count = sum(it.level is level for it in findings)
        ranks = ranked(findings) if level is Level.WARNING else ""
        words.append(f"{count or 'no'} {one if count == 1 else more}{ranks}")
    verdict = "refused" if any(it.level is Level.ERROR for it in findings) else "accepted"
    return f"{verdict}: {', '.join(words)}"
