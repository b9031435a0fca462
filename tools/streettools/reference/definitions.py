"""docs/DEFINITIONS.md: the definitions that the contract of `station` reaches, by area, with their comments."""

import functools
import pathlib
import re
import textwrap
import tomllib
from collections.abc import Iterator
from dataclasses import dataclass, field

from ..promises.reached import Statements

AREAS = pathlib.Path(__file__).with_name("definitions.toml")
"""The areas in their order, each with its introduction and its files; and the head of the page."""

COLUMNS = 118
SHAPE = re.compile(r"(?:abbrev |unfoldable )?pub (?!use\b)(?:(record|data) )?(.*)")
"""The first line of a definition."""

CLAUSE = re.compile(r"(\S+)((?: [^\W\d]\w*'*)*) =")
"""The first line of a body whose arguments are names."""


@dataclass
class Definition:
    """A definition: its name, its signature with the names of its arguments, and the names of what a record or a type
    has."""

    name: str
    signature: str
    members: list[str] = field(default_factory=list)

    def __str__(self) -> str:
        tail = f" ({', '.join(f'`{it}`' for it in self.members)})" if self.members else ""
        return f"`{self.signature}`{tail}"


@dataclass
class Entry:
    """A comment, and the definitions that it speaks of."""

    comment: str
    definitions: list[Definition] = field(default_factory=list)


@dataclass(frozen=True)
class File:
    """A file of definitions: its place, what it is about, its entries."""

    place: str
    about: str
    entries: list[Entry]


class Unlisted(ValueError):
    """The list of areas doesn't fit the files, in words."""


def remark(lines: list[str]) -> str:
    """Returns a comment as one line."""
    return " ".join(" ".join(it.lstrip().removeprefix("--").strip() for it in lines).split())


def indented(lines: list[str], at: int) -> list[str]:
    """Returns the indented lines from a place on."""
    end = at
    while end < len(lines) and lines[end].startswith(" "):
        end += 1
    return lines[at:end]


def named(signature: str, body: list[str]) -> str:
    """Returns a signature with the names of the arguments, if the body is one clause whose arguments are names."""
    name, colon, kind = signature.partition(" : ")
    found = CLAUSE.match(body[0]) if body else None
    is_one = len(body) < 2 or not body[1].startswith(f"{name} ")
    return f"{name}{found[2]}{colon}{kind}" if found and found[1] == name and is_one else signature


def definition(lines: list[str], at: int) -> Definition | None:
    """Returns the definition that begins at a line, None if none does."""
    found = SHAPE.fullmatch(lines[at])
    if not found:
        return None
    below = indented(lines, at + 1)
    if found[1]:
        text = " ".join(" ".join([found[2], *below]).split())
        head = re.split(r" : Type \d where| where", text)[0]
        shape = r"  pub (\S+) :" if found[1] == "record" else r"  (\w+) :"
        members = [it[1] for line in below if (it := re.match(shape, line))]
        return Definition(head.split()[0], f"{found[1]} {head}", members)
    signature = " ".join(" ".join([found[2], *below]).split())
    body = [it for it in lines[at + 1 + len(below) :][:40] if not it.startswith(" ")]
    return Definition(signature.split()[0], named(signature, body))


def mutual(lines: list[str], at: int) -> list[Definition]:
    """Returns the definitions of a block that speak of each other."""
    inner = [it.removeprefix("  ") for it in indented([*filter(None, lines[at + 1 :])], 0)]
    return [it for place in range(len(inner)) if (it := definition(inner, place))]


def read(place: str, text: str) -> File:
    """Reads a file of definitions. A definition without a comment belongs to the comment before it."""
    lines = text.splitlines()
    start = next(at for at, it in enumerate(lines) if not it.startswith("--"))
    entries: list[Entry] = []
    comment: list[str] = []
    for at in range(start, len(lines)):
        line = lines[at]
        if line.startswith("--"):
            comment.append(line)
            continue
        found = mutual(lines, at) if line == "abbrev mutual" else [it for it in [definition(lines, at)] if it]
        if found:
            if comment or not entries:
                entries.append(Entry(remark(comment)))
            entries[-1].definitions += found
        if not line.startswith(("infix", "use", "pub use")):
            comment = []
    return File(place, remark(lines[:start]), entries)


@functools.cache
def files(top: pathlib.Path) -> dict[str, File]:
    """Returns the files of definitions that the contract reaches, by `crate/File`."""
    found = {}
    for place in sorted(Statements(top)):
        if place.endswith(".antt"):
            _, crate, _, *rest = place.split("/")
            name = f"{crate}/{'/'.join(rest).removesuffix('.antt')}"
            found[name] = read(place, (top / place).read_text(encoding="utf-8"))
    return found


def areas(known: dict[str, File]) -> Iterator[tuple[str, str, list[File]]]:
    """Yields the title, the introduction and the files of each area; a crate means all of its files that no area
    names."""
    listed = tomllib.loads(AREAS.read_text(encoding="utf-8"))["area"]
    named_ones = {it for area in listed for it in area["files"]}
    left = set(known)
    for area in listed:
        chosen: list[str] = []
        for it in area["files"]:
            whole = (name for name in known if name.startswith(f"{it}/") and name not in named_ones)
            more = [it] if "/" in it else [*whole]
            if not more or not left.issuperset(more):
                raise Unlisted(f"{AREAS.name}: {it} isn't reached, or is listed twice")
            left -= {*more}
            chosen += more
        yield area["title"], area["about"], [known[it] for it in chosen]
    if left:
        raise Unlisted(f"{AREAS.name}: no area has {', '.join(sorted(left))}")


def wrapped(text: str, indent: str = "") -> str:
    """Returns a paragraph in lines."""
    return textwrap.fill(text, COLUMNS, subsequent_indent=indent, break_long_words=False, break_on_hyphens=False)


def escaped(comment: str) -> str:
    """Returns a comment in which Markdown reads no mark-up, outside of code spans."""
    pieces = re.split(r"(`[^`]*`)", comment)
    return "".join(it if it.startswith("`") else re.sub(r"([*_<\[\]])", r"\\\1", it) for it in pieces)


def shown(file: File) -> str:
    """Returns the section of a file."""
    name = file.place.removeprefix("crates/")
    lines = [f"### [{name}](../{file.place})", "", wrapped(escaped(file.about)), ""]
    for entry in file.entries:
        heads = "; ".join(map(str, entry.definitions))
        lines.append(wrapped(f"- {heads}" + (f": {escaped(entry.comment)}" if entry.comment else ""), "  "))
    return "\n".join(lines) + "\n"


def page(top: pathlib.Path) -> str:
    """Returns the page."""
    head = tomllib.loads(AREAS.read_text(encoding="utf-8"))["head"]
    found = [*areas(files(top))]
    index = (wrapped(f"- [{title}](#{anchor(title)}): {about}", "  ") + "\n" for title, about, _ in found)
    parts = [head.lstrip(), "".join(index)]
    for title, about, listed in found:
        parts += [f"## {title}\n", wrapped(about) + "\n", *map(shown, listed)]
    return "\n".join(parts)


def anchor(title: str) -> str:
    """Returns the anchor of a title."""
    return re.sub(r"[^a-z0-9 -]", "", title.lower()).replace(" ", "-")
