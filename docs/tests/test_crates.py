"""A line of crates.txt names only crates that a file of its crate names."""

import functools
import re

import pytest
from pages import TOP


@functools.cache
def lines() -> dict[str, list[str]]:
    """Returns the crates of crates.txt, each with the crates that it uses."""
    found = {}
    for raw in (TOP / "crates.txt").read_text(encoding="utf-8").splitlines():
        head, colon, words = raw.split("#")[0].partition(":")
        if colon:
            found[head.split()[0]] = words.split()
    return found


def sources(crate: str) -> str:
    """Returns the code, definitions and proofs of a crate, without comments."""
    folder = TOP / "crates" / crate
    files = [it for part in ("src", "specs", "proofs") for it in sorted((folder / part).rglob("*.*t"))]
    texts = (it.read_text(encoding="utf-8").splitlines() for it in files if it.suffix in (".rt", ".antt"))
    return "\n".join(line for text in texts for line in text if not line.lstrip().startswith(("//", "--")))


@pytest.mark.parametrize("crate", sorted(lines()))
def test_each_word_of_a_line_is_used(crate):
    text = sources(crate)
    unused = [it for it in lines()[crate] if not re.search(rf"\b{it}(::|\.)|\buse {it}\b", text)]
    assert unused == []
