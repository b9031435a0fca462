"""The lemmas and definitions of a file of `proofs/` or `specs/`, and the text of each without the names that it binds.

An item is a paragraph: its type, and then its clauses. Two items are duplicates if their texts are the same after two
changes: an imported name becomes its full path, and a name that the item itself binds becomes a number. The name of
the item also becomes a number.
"""

import pathlib
import re
from collections.abc import Iterator
from dataclasses import dataclass

IMPORT = re.compile(r"^(?:pub )?use ([\w.+-]+)\.\{([^}]*)\}", re.MULTILINE)
HEAD = re.compile(r"^(?:abbrev )?(?:pub )?([^\s:]+)(?: :|(?= \())[^=]*$")
"""The first line of an item: its name and its type."""

ANSWER = re.compile(r"^\S+ : goal\.|^(?:abbrev )?pub \S+ : goal\.")
"""An answer to a goal of the prover: it has no other place."""

WORD = re.compile(r"[^\W\d][\w-]*")


@dataclass(frozen=True)
class Item:
    """A lemma or a definition: its file, its name, its number of lines, and its text with numbers for names."""

    file: str
    name: str
    lines: int
    text: str


def imports(text: str) -> dict[str, str]:
    """Returns the imported names of a file, each with its full path."""
    found = {}
    for path, names in IMPORT.findall(text):
        for name in names.split(","):
            first, _, other = name.strip().partition(" as ")
            found[other or first] = f"{path}.{first}"
    return found


def paragraphs(text: str) -> Iterator[list[str]]:
    """Yields the paragraphs of a file, without comments."""
    kept = "\n".join(line for line in text.splitlines() if not line.lstrip().startswith("--"))
    for block in re.split(r"\n\s*\n", kept):
        lines = [line for line in block.splitlines() if line.strip()]
        if lines:
            yield lines


def numbered(lines: list[str], known: dict[str, str]) -> str:
    """Returns lines in one, with full paths for known names and numbers for the others, in their order."""
    numbers: dict[str, int] = {}

    def renamed(word: re.Match[str]) -> str:
        name = word[0]
        return known.get(name) or f"#{numbers.setdefault(name, len(numbers))}"

    text = " ".join(" ".join(lines).split()).replace("abbrev ", "").replace("pub ", "")
    return WORD.sub(renamed, text)


KEYWORDS = ("let", "in", "match", "where", "rw", "omega", "grind", "search", "simp", "refl", "record", "absurd", "λ")


def items(file: pathlib.Path, name: str) -> Iterator[Item]:
    """Yields the items of a file, which has this name in reports."""
    text = file.read_text(encoding="utf-8")
    blocks = [it for it in paragraphs(text) if HEAD.match(it[0]) and not ANSWER.match(it[0])]
    heads = [HEAD.match(it[0]) for it in blocks]
    own = {it[1]: it[1] for it in heads if it}
    known = {**{it: it for it in KEYWORDS}, **own, **imports(text)}
    for lines, head in zip(blocks, heads, strict=True):
        if head and len(lines) > 1:
            others = {key: path for key, path in known.items() if key != head[1]}
            yield Item(name, head[1], len(lines), numbered(lines, others))
