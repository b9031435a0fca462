"""The documents of this repository: the commands in their indented blocks, and what they say that these print."""

import itertools
import pathlib
import re
from dataclasses import dataclass, field

TOP = pathlib.Path(__file__).resolve().parents[2]
INDENT = "    "
WORDS = re.compile(
    r"(\./\w+|(vectors|mibs|tools|bench|corpora)/\w+|python3|grep|awk|sed|cmp|export|gcc|apt-get|snmp\w+|sinfo|rt)( |$)"
)
"""How a line begins that is a command, in a block that marks none by `$ `."""

WITHIN = re.compile(r"`(\./(?:arterial|look) [^`]*\bscenarios/[a-z][^`]*)`")
"""A command within a sentence: one that names a file of this repository. Others are named without being shown."""

ANYTHING = ".."
"""A line that stands for any further output."""


@dataclass
class Command:
    """A command of a page: the number of its line, and the lines that it prints by the page; None where the page
    doesn't say what it prints."""

    line: int
    text: str
    printed: list[str] | None = field(default=None)


def pages() -> list[pathlib.Path]:
    """Returns all documents, by their names from the top of the repository."""
    found = (it.relative_to(TOP) for it in TOP.rglob("*.md"))
    return sorted(it for it in found if not any(part.startswith(".") or part == "out" for part in it.parts))


def blocks(page: pathlib.Path) -> list[list[tuple[int, str]]]:
    """Returns the indented blocks of a page, each line with its number and without its indent."""
    found: list[list[tuple[int, str]]] = [[]]
    for number, line in enumerate((TOP / page).read_text(encoding="utf-8").splitlines(), 1):
        if line.startswith(INDENT):
            found[-1].append((number, line[len(INDENT) :]))
        elif found[-1]:
            found.append([])
    return [it for it in found if it]


def joined(block: list[tuple[int, str]]) -> list[tuple[int, str]]:
    """Returns a block with each line that ends in a backslash joined with the next one."""
    found: list[tuple[int, str]] = []
    for number, line in block:
        if found and found[-1][1].endswith("\\"):
            before, text = found.pop()
            number, line = before, text[:-1] + line.lstrip()
        found.append((number, line))
    return found


def commands(page: pathlib.Path) -> list[Command]:
    """Returns the commands of a page, those of its blocks in order and then those within its sentences. In a block that
    begins with `$ ` each line with that mark is a command, and the lines after it are all that it prints, even after an
    empty line; in any other block a line that begins with the word of a command is one, up to a remark after ` # `."""
    found, is_marked, last = [], False, 0
    for block in map(joined, blocks(page)):
        is_marked = block[0][1].startswith("$ ") or (is_marked and block[0][0] == last + 2)
        last = block[-1][0]
        for number, line in block:
            if is_marked and line.startswith("$ "):
                found.append(Command(number, line[2:], []))
            elif is_marked:
                found[-1].printed.append(line)
            elif WORDS.match(line):
                found.append(Command(number, re.split(r"\s+# ", line)[0]))
    text = (TOP / page).read_text(encoding="utf-8")
    return found + [Command(text.count("\n", 0, it.start()) + 1, it[1]) for it in WITHIN.finditer(text)]


def agrees(printed: list[str], said: str) -> bool:
    """Tells whether a command's output is what a page shows, where lines may be broken elsewhere."""
    rest, is_open = " ".join(said.split()), False
    for is_gap, lines in itertools.groupby(printed, lambda line: line.strip() == ANYTHING):
        if is_gap:
            is_open = True
            continue
        words = " ".join(" ".join(lines).split())
        at = rest.find(words)
        if at < 0 or (at > 0 and not is_open):
            return False
        rest, is_open = rest[at + len(words) :].lstrip(), False
    return is_open or not rest
