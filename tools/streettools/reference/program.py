"""What the program says of itself, as data: the parts of its help text in crates/station/src/help.rt."""

import pathlib
import re
import textwrap
from dataclasses import dataclass

from ..launch import source

STATUS = re.compile(r"(\d+) (.+?)(?:, (?=\d+ )|$)")


@dataclass(frozen=True)
class Part:
    """A command of the program: its name, how it is written, and what it does in one paragraph or more."""

    name: str
    usage: str
    about: tuple[str, ...]


@dataclass(frozen=True)
class Help:
    """The help text: what the program is, its commands, its exit statuses, what they leave, and where to read on."""

    about: str
    parts: tuple[Part, ...]
    statuses: tuple[tuple[int, str], ...]
    after: str
    more: str


def plain(text: str) -> str:
    """Returns a paragraph in one line."""
    return " ".join(text.split())


def paragraphs(text: str) -> tuple[str, ...]:
    """Returns the paragraphs of a command. The help text has no empty lines in a command: a sentence that ends well
    before the end of its line ends a paragraph."""
    found: list[list[str]] = [[]]
    lines = textwrap.dedent(text).splitlines()
    for at, line in enumerate(lines):
        found[-1].append(line)
        word = lines[at + 1].split()[0] if at + 1 < len(lines) else ""
        if word and line.endswith(".") and len(line) + 1 + len(word) <= 72:
            found.append([])
    return tuple(plain("\n".join(it)) for it in found)


def version(top: pathlib.Path) -> str:
    """Returns the line that `--version` prints."""
    text = source.version(top)
    if text is None:
        raise ValueError("crates/station/src/help.rt has no text VERSION")
    return text.strip()


def read(top: pathlib.Path) -> Help:
    """Reads the help text."""
    text = source.help(top)
    if text is None:
        raise ValueError("crates/station/src/help.rt has no text HELP")
    about, listed, rest = re.split(r"\n\n(?=  arterial|Exit)", text, maxsplit=2)
    parts = []
    for it in re.finditer(r"^  (arterial (--)?(\w+)\b.*)\n((?:      .*\n?)+)", listed + "\n", re.M):
        parts.append(Part((it[2] or "") + it[3], it[1], paragraphs(it[4])))
    statuses, more = rest.split("\n\n", 1)
    line, _, after = plain(statuses).removeprefix("Exit status: ").partition(". ")
    known = tuple((int(number), it) for number, it in STATUS.findall(line))
    return Help(plain(about), tuple(parts), known, after, plain(more))
