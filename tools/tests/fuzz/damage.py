"""Damaged texts: what a fuzzer changes in a good one. The cases are the same in each run.

FUZZ_CASES in the environment is how many cases each fuzzer tries, in place of the few that `./test` has time for.
"""

import functools
import os
import re
from collections.abc import Callable
from typing import Any

from hypothesis import HealthCheck, settings
from hypothesis import strategies as st
from hypothesis.strategies import SearchStrategy

TOKEN = re.compile(rb"-?\d+(?:\.\d+)?|[A-Za-z_]+|\s+|.", re.DOTALL)
NUMBERS = [b"0", b"-1", b"1", b"17", b"65", b"255", b"256", b"65536", b"864000", b"4294967296", b"-9223372036854775809",
           b"1" + b"0" * 400, b"9" * 5000, b"0.5", b"-0", b"1e400", b"nan", b"inf"]  # fmt: skip
WORDS = [b"", b" ", b"\n", b"\t", b"\r", b"\0", b"\x1b[2J", b"\xff", b"\xc3\xa9", b'"', b"'", b"=", b",", b".", b":",
         b"|", b"-", b"#", b"[", b"]", b"{", b"}", b"[[", b"]]", b"true", b"null", b"[]", b"{}", b'""', b"[[]]", b'"x"',
         b"?",
         b"[" * 300, b"{\"a\":" * 300, b"a=" + b"[" * 300, b"07:30:00", b"1979-05-27", b"std8", b"$x^{$"]  # fmt: skip
VALUES: list[Any] = [None, True, False, 0, -1, 1, 2, 17, 65, 2**40, 2**64, 10**400, 0.5, 1e300, "", "x", "0102", "zz",
                     "\x1b[2J", "é" * 300, [], {}, [[]], [{}], {"a": 1}, [1, 2, 3], ["phase", 1, 2, 3],
                     ["x"]]  # fmt: skip


def tried(few: int) -> Callable:
    """Returns the settings of a fuzzer: so many cases, or as many as FUZZ_CASES says."""
    cases = int(os.environ.get("FUZZ_CASES", "0")) or few
    return settings(
        max_examples=cases, derandomize=True, database=None, deadline=None, suppress_health_check=list(HealthCheck)
    )


@functools.lru_cache(maxsize=64)
def tokens(text: bytes) -> tuple[bytes, ...]:
    """Returns the words, numbers, blanks and marks of a text."""
    return tuple(TOKEN.findall(text))


def changed(text: bytes, kind: int, at: int, other: int, new: bytes) -> bytes:
    """Returns a text with one change: of a token, an octet, a span or a line."""
    parts = list(tokens(text))
    if not parts:
        return new
    here, there = sorted((at % len(parts), other % len(parts)))
    match kind:
        case 0:
            parts[here] = new
        case 1:
            parts.insert(here, new)
        case 2:
            del parts[here : min(there, here + 20) + 1]
        case 3:
            parts[there:there] = parts[here : here + 1 + other % 20]
        case 4:
            return b"".join(parts[:here])
        case 5:
            parts[here], parts[there] = parts[there], parts[here]
        case 6:
            numbers = [place for place, it in enumerate(parts) if it[-1:].isdigit()] or [here]
            parts[numbers[at % len(numbers)]] = new
        case 7:
            lines = text.splitlines(keepends=True)
            lines[at % len(lines)], lines[other % len(lines)] = lines[other % len(lines)], lines[at % len(lines)]
            return b"".join(lines)
        case _:
            whole = bytearray(b"".join(parts))
            whole[at % len(whole)] ^= 1 << other % 8
            return bytes(whole)
    return b"".join(parts)


CHANGE = st.tuples(
    st.integers(0, 8), st.integers(0, 2**20), st.integers(0, 2**20), st.sampled_from(NUMBERS + WORDS + NUMBERS)
)


def damaged(texts: list[bytes]) -> SearchStrategy[bytes]:
    """Returns texts that are one of some with one to four changes."""

    def made(case: tuple[bytes, list]) -> bytes:
        text, changes = case
        for change in changes:
            text = changed(text, *change)
        return text

    return st.tuples(st.sampled_from(texts), st.lists(CHANGE, min_size=1, max_size=4)).map(made)


def paths(value: Any, before: tuple = ()) -> list[tuple]:
    """Returns the path to each value within a value."""
    below = value.items() if isinstance(value, dict) else enumerate(value) if isinstance(value, list) else ()
    return [before, *(path for name, it in below for path in paths(it, (*before, name)))]


def with_other(value: Any, path: tuple, new: Any) -> Any:
    """Returns a value in which another one is at a path; what is a name there may be left out (new is ...)."""
    if not path:
        return new
    name, *rest = path
    if isinstance(value, list):
        return [with_other(it, tuple(rest), new) if at == name else it for at, it in enumerate(value)]
    if new is ... and not rest:
        return {key: it for key, it in value.items() if key != name}
    return {key: with_other(it, tuple(rest), new) if key == name else it for key, it in value.items()}


def damaged_values(values: list[Any]) -> SearchStrategy[Any]:
    """Returns values that are one of some in which one to three parts are others, or are missing."""
    known = {index: paths(value)[1:] for index, value in enumerate(values)}
    change = st.tuples(st.integers(0, 2**20), st.sampled_from([*VALUES, ...]))

    def made(case: tuple[int, list]) -> Any:
        index, changes = case
        value = values[index]
        for at, new in changes:
            where = known[index] if value is values[index] else paths(value)[1:]
            if not where or not isinstance(value, (dict, list)):
                break
            path = where[at % len(where)]
            value = with_other(value, path, None if new is ... and isinstance(path[-1], int) else new)
        return value

    return st.tuples(st.integers(0, len(values) - 1), st.lists(change, min_size=1, max_size=3)).map(made)
