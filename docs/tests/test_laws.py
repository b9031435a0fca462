"""Each law that no code calls is on the page of guarantees or on the page of laws."""

import functools
import re
from collections.abc import Iterator

from pages import TOP

LAW = re.compile(r"^pub fn (\w+)(?:<[^>]*>)?\([^)]*\)((?:(?!^(?:pub |\{|fn )).*\n)*?)^\{\}$", re.MULTILINE)
"""A public function with an empty body: its name and its contract."""

COMMENT = re.compile(r"//.*")
HEAD = re.compile(r"\bfn \w+")
ROW = re.compile(r"^\| `(\w+)`: `(\w+)` \| \S", re.MULTILINE)
"""A row of the page of laws: the crate and the law."""


@functools.cache
def sources() -> dict[tuple[str, str], str]:
    """Returns the sources of all crates without comments, by their crates and paths."""
    found = sorted((TOP / "crates").glob("*/src/**/*.rt"))
    return {
        (it.relative_to(TOP / "crates").parts[0], str(it)): COMMENT.sub("", it.read_text(encoding="utf-8"))
        for it in found
    }


def laws() -> Iterator[tuple[str, str]]:
    """Yields the crate and the name of each law."""
    for (crate, _), text in sources().items():
        for law in LAW.finditer(text):
            if "ensures" in law[2]:
                yield crate, law[1]


@functools.cache
def calls() -> dict[str, set[str]]:
    """Returns the names of the functions that the code of each crate calls."""
    found: dict[str, set[str]] = {}
    for (crate, _), text in sources().items():
        found.setdefault(crate, set()).update(re.findall(r"(?<!\.)\b(\w+)\(", HEAD.sub("", text)))
    return found


@functools.cache
def defined() -> dict[str, set[str]]:
    """Returns the names of the functions that each crate defines."""
    found: dict[str, set[str]] = {}
    for (crate, _), text in sources().items():
        found.setdefault(crate, set()).update(it.split()[1] for it in HEAD.findall(text))
    return found


def is_called(crate: str, law: str) -> bool:
    """Tells whether some code calls a law: in its own crate, or in one that has no other function of this name."""
    return any(law in names and (crate == own or law not in defined()[own]) for own, names in calls().items())


@functools.cache
def uncalled() -> frozenset[tuple[str, str]]:
    """Returns the laws that no code calls."""
    return frozenset(it for it in laws() if not is_called(*it))


def named_in_guarantees() -> set[tuple[str, str]]:
    """Returns the laws of the page of guarantees, which names a crate and then some of its laws."""
    text = (TOP / "docs/GUARANTEES.md").read_text(encoding="utf-8")
    groups = re.findall(r"`(\w+)`: ((?:`[\w:]+`(?:, (?:and )?)?)+)", text)
    return {(crate, law) for crate, names in groups for law in re.findall(r"`(\w+)`", names)}


def on_the_page() -> list[tuple[str, str]]:
    """Returns the laws of the page of laws, in its order."""
    return ROW.findall((TOP / "docs/LAWS.md").read_text(encoding="utf-8"))


def test_each_law_that_no_code_calls_is_on_one_of_the_two_pages():
    missing = uncalled() - set(on_the_page()) - named_in_guarantees()
    assert sorted(missing) == [], "add a row to docs/LAWS.md: what would the law detect?"


def test_each_row_of_the_page_of_laws_is_a_law_that_no_code_calls():
    assert sorted(set(on_the_page()) - uncalled()) == []


def test_no_law_is_listed_twice():
    rows = on_the_page()
    assert len(rows) == len(set(rows))
    assert sorted(set(rows) & named_in_guarantees()) == []
