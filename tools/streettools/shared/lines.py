"""Reads the lines of a trace, one after another, by the grammar in docs/TRACE.md.

There is a record for each line; text that isn't a line stops the reading. `trace_reader` says what lines mean together.
"""

import io
import json
from collections.abc import Callable, Iterator
from functools import lru_cache
from typing import Protocol

from .trace_records import Answer, End, Frame, Journal, Load, Note, Record, Round, Scenario, new

LONGEST = 67_108_864
"""No line of a trace has more bytes than a trace may have."""

MOST = 4_294_967_295
COLOURS, SIGNALS, DIGITS = b"GYCR", b"WFD", b"0123456789abcdef"
PHASES = 16
MOST_OCTETS = 1472
"""How many octets a reply has at most."""
STAGES = "etdx"
AT_ONCE = 1 << 18
"""How many bytes are read at once."""
MOST_KEPT = 4096
"""How many words and lines that are often repeated are kept with their meaning."""


class Stream(Protocol):
    """What lines are read from."""

    def read1(self, size: int = -1, /) -> bytes:
        """Reads some bytes."""


def number(digits: bytes, most: int = MOST) -> int:
    """Returns the number that the digits write; a number beyond its type makes the line none, and so do other digits
    than those that it is written with."""
    value = int(digits)
    if not 0 <= value <= most or b"%d" % value != digits:
        raise ValueError
    return value


usual = lru_cache(MOST_KEPT)(number)
"""Does the same for numbers that are often repeated."""


def signed(digits: bytes) -> int:
    """Returns the number of 32 bits that is written with a sign if it is below 0."""
    value = int(digits)
    if not -(2**31) <= value < 2**31 or b"%d" % value != digits:
        raise ValueError
    return value


@lru_cache(MOST_KEPT)
def mode(word: bytes) -> str:
    """Returns a mode as text, once it is known to be one."""
    text = word.decode("ascii")
    letter, rest = text[:1], word[1:]
    if letter == "P" and text[1:] and text[-1] in STAGES:
        rest = rest[:-1]
    elif letter not in ("K", "C"):
        if text not in ("S", "F", "E", "X"):
            raise ValueError
        return text
    number(rest, 255)
    return text


@lru_cache(MOST_KEPT)
def colours(word: bytes) -> str:
    """Returns 16 colours as text."""
    return letters(word, COLOURS)


@lru_cache(MOST_KEPT)
def signals(word: bytes) -> str:
    """Returns 16 pedestrian signals as text."""
    return letters(word, SIGNALS)


def letters(word: bytes, known: bytes) -> str:
    """Returns as text a word of 16 letters that are among those that are known."""
    if len(word) != PHASES or word.strip(known):
        raise ValueError
    return word.decode("ascii")


def runs(words: list[bytes]) -> tuple[tuple[int, int], ...]:
    """Returns the runs of a journal, which are as long as they can be."""
    found: list[tuple[int, int]] = []
    before = None
    for word in words:
        way, count = map(number, word.split(b"*"))
        if count == 0 or way == before:
            raise ValueError
        found.append((way, count))
        before = way
    return tuple(found)


@lru_cache(MOST_KEPT)
def journal(line: bytes) -> Journal:
    """Returns the record of a J line; of one cabinet's rounds most have the same."""
    letter, cabinet, *words = body(line)
    if letter != b"J" or not words:
        raise ValueError
    return Journal(number(cabinet), runs(words))


def body(line: bytes) -> list[bytes]:
    """Returns the words of a line, which ends in a newline."""
    if line[-1:] != b"\n":
        raise ValueError
    return line[:-1].split(b" ")


def round_of(line: bytes) -> Round:
    """Returns the record of an R line."""
    letter, digits = body(line)
    if letter != b"R":
        raise ValueError
    return Round(number(digits))


def frame(line: bytes) -> Frame:
    """Returns the record of an F line."""
    _, cabinet, tick, vehicles, pedestrians, word, counter, target, version = body(line)
    shown = colours(vehicles), signals(pedestrians), mode(word)
    return new(
        Frame, (usual(cabinet), number(tick), *shown, number(counter), usual(target), usual(version))
    )


def load(line: bytes) -> Load:
    """Returns the record of an L line."""
    _, cabinet, count, result, *words = body(line)
    if result == b"accepted":
        (version,) = words
        return Load(number(cabinet), number(count), number(version), 0, 0)
    rule, row = words
    if result != b"refused":
        raise ValueError
    return Load(number(cabinet), number(count), None, number(rule, 255), number(row, 65535))


def note(line: bytes) -> Note:
    """Returns the record of an M line."""
    _, cabinet, *words = body(line)
    match words:
        case [b"fail" | b"good"]:
            pass
        case [b"pattern", pattern]:
            number(pattern, 255)
        case [b"load", count, b"done"]:
            number(count)
        case [b"load", count, b"refused", rule, row]:
            number(count), signed(rule), signed(row)
        case _:
            raise ValueError
    return Note(number(cabinet), b" ".join(words).decode("ascii"))


def answer(line: bytes) -> Answer:
    """Returns the record of an A line."""
    _, cabinet, way, digits = body(line)
    if digits != b"-" and (len(digits) % 2 or not 0 < len(digits) <= 2 * MOST_OCTETS or digits.strip(DIGITS)):
        raise ValueError
    return Answer(number(cabinet), number(way), None if digits == b"-" else digits.decode("ascii"))


def end(line: bytes) -> End:
    """Returns the record of a Z line."""
    _, digits = body(line)
    return End(number(digits))


KINDS: dict[bytes, Callable[[bytes], Record]] = {
    b"F ": frame, b"R ": round_of, b"J ": journal, b"A ": answer, b"L ": load, b"M ": note, b"Z ": end,
}  # fmt: skip
"""By the letter with which it begins, what gives the record of a line."""


def scenario(line: bytes) -> Scenario:
    """Returns the record of an S line, which ends in a newline and holds a JSON object."""
    if line[:2] != b"S " or line[-1:] != b"\n":
        raise ValueError
    value = json.loads(line[2:-1])
    if not isinstance(value, dict):
        raise ValueError
    return Scenario(value)


def record(line: bytes) -> Record:
    """Returns the record of a line other than the first; raises ValueError if it isn't a line."""
    found = KINDS.get(line[:2])
    if found is None:
        raise ValueError
    return found(line)


def blocks(stream: Stream, advance: Callable[[int], object] | None = None) -> Iterator[list[bytes]]:
    """Yields the lines of a stream, each with its newline, in lists of those that were read at once. `advance` is
    called with the number of bytes that were read."""
    parts, size = [], 0
    while octets := stream.read1(AT_ONCE):
        parts.append(octets)
        size += len(octets)
        if advance:
            advance(len(octets))
        if b"\n" in octets or size > LONGEST:
            found = io.BytesIO(b"".join(parts)).readlines()
            rest = b"" if found[-1].endswith(b"\n") or len(found[-1]) > LONGEST else found.pop()
            yield found if len(found[0]) <= LONGEST else [found[0][: LONGEST + 1]]
            parts, size = [rest] if rest else [], len(rest)
    if parts:
        yield [b"".join(parts)]
