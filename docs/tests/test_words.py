"""Documents, comments of crates and docstrings avoid the words that words.toml lists."""

import ast
import functools
import pathlib
import re
import tomllib
from collections.abc import Iterable, Iterator

import pages
import pytest
from pages import TOP

LIST = pathlib.Path(__file__).with_name("words.toml")
PATTERNS = tomllib.loads(LIST.read_text(encoding="utf-8"))["pattern"]
OWN = ("docs/STYLE.md", "docs/DEFINITIONS.md")
"""Documents that show the words themselves, or that are made from comments in the sources."""


@functools.cache
def prose(page: pathlib.Path) -> str:
    """Returns a page in one line, without its indented blocks and without code spans."""
    lines = (TOP / page).read_text(encoding="utf-8").splitlines()
    text = " ".join(line.strip() for line in lines if not line.startswith(pages.INDENT))
    return re.sub(r"`[^`]*`", "`..`", text)


def matches(pattern: dict, page: pathlib.Path) -> list[str]:
    """Returns what a pattern finds on a page, each with some words around it."""
    text = prose(page)
    return [
        text[max(0, it.start() - 30) : it.end() + 30] for it in re.finditer(pattern["find"], text, re.IGNORECASE)
    ]


CHECKED = [it for it in pages.pages() if str(it) not in OWN]


@pytest.mark.parametrize("page", CHECKED, ids=str)
def test_a_page_has_no_avoided_words(page):
    for pattern in PATTERNS:
        assert matches(pattern, page) == [], f"write {pattern['write']!r}"


COMMENT = re.compile(r"\s*(?:///|//!|//|--)(.*)")
THERE = re.compile(r"\bthere (?:is|are) no\b", re.IGNORECASE)
"""What a comment may say: that nothing of a kind is there."""


def joined(parts: Iterable[str]) -> str:
    """Returns texts in one line, without code spans."""
    text = re.sub(r"\s+", " ", " ".join(parts))
    return THERE.sub("there ..", re.sub(r"`[^`]*`", "`..`", text))


def comments(file: pathlib.Path) -> str:
    """Returns the comments of a file in one line, without code spans; a full stop parts those with code between."""
    found = (COMMENT.match(line) for line in file.read_text(encoding="utf-8").splitlines())
    return joined(it[1] if it else "." for it in found)


def refuse_matches(texts: dict[str, str]) -> None:
    """Fails if a pattern matches in one of the texts, which have their files' names."""
    for pattern in PATTERNS:
        found = [
            f"{name}: {text[max(0, it.start() - 30) : it.end() + 30]}"
            for name, text in texts.items()
            for it in re.finditer(pattern["find"], text, re.IGNORECASE)
        ]
        assert found == [], f"write {pattern['write']!r}"


@pytest.mark.parametrize("crate", sorted(it.name for it in (TOP / "crates").iterdir()))
def test_the_comments_of_a_crate_have_no_avoided_words(crate):
    folders = ("src", "specs", "proofs")
    files = [it for folder in folders for it in sorted((TOP / "crates" / crate / folder).rglob("*.*t"))]
    texts = {str(it.relative_to(TOP)): comments(it) for it in files if it.suffix in (".rt", ".antt")}
    refuse_matches(texts)


def docstrings(body: list[ast.stmt]) -> Iterator[str]:
    """Yields the docstrings below some statements, those of attributes among them, each with a full stop after it."""
    for it in body:
        if isinstance(it, ast.Expr) and isinstance(it.value, ast.Constant) and isinstance(it.value.value, str):
            yield f"{it.value.value} ."
        for part in ("body", "orelse", "finalbody"):
            yield from docstrings(getattr(it, part, ()))


@pytest.mark.parametrize("folder", ["model", "tools"])
def test_the_docstrings_of_a_folder_have_no_avoided_words(folder):
    files = [it for it in sorted((TOP / folder).rglob("*.py")) if "tests" not in it.parts]
    texts = {
        str(it.relative_to(TOP)): joined(docstrings(ast.parse(it.read_text(encoding="utf-8")).body)) for it in files
    }
    refuse_matches(texts)
