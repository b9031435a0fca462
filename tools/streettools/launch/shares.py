"""The known shares of the crates in the time of all proofs."""

import functools
import pathlib

from . import crates

SECONDS = {"station": 220, "arterial": 130}
"""CPU seconds of a crate's first check with one job, as measured."""

START, EACH_RUST, EACH_PROOF = 10, 0.055, 0.018
"""Where nothing was measured: seconds of a check before its first function, and for a line of a program and one of
specifications or proofs."""


def of(names: list[str], top: pathlib.Path) -> dict[str, float]:
    """Returns the CPU seconds that the check of each crate is likely to take."""
    return {name: SECONDS.get(name) or guessed(top / "crates" / name) for name in names}


def guessed(folder: pathlib.Path) -> float:
    """Returns a guess by the number of lines."""
    rust, proofs = lines(folder)
    return START + EACH_RUST * rust + EACH_PROOF * proofs


@functools.cache
def lines(folder: pathlib.Path) -> tuple[int, int]:
    """Returns how many lines of programs a crate has, and of specifications and proofs."""
    files = [it for part in crates.PARTS for it in (folder / part).rglob("*") if it.is_file()]
    counts = {
        suffix: sum(it.read_bytes().count(b"\n") for it in files if it.suffix == suffix) for suffix in (".rt", ".antt")
    }
    return counts[".rt"], counts[".antt"]
