"""The requests of a session: what a line asks for, or the word that says why it isn't accepted.

docs/LIVE.md, "Requests" and "Requests that are not accepted".
"""

import re
from collections.abc import Callable
from dataclasses import dataclass
from typing import Union

from model.scenario import Button, Detector, Input, PreemptInput, Stream

LONGEST_LINE, MOST_OCTETS = 4096, 1472
STREAMS = {it.name.lower().encode(): it for it in Stream}


class NotTaken(Exception):
    """A request isn't accepted; the word says why."""


@dataclass(frozen=True)
class Tick:
    """Each cabinet takes this number of ticks."""

    count: int


@dataclass(frozen=True)
class Given:
    """A cabinet receives an input from the street."""

    cabinet: int
    what: Input


@dataclass(frozen=True)
class Framed:
    """A cabinet receives a frame on a stream."""

    cabinet: int
    stream: Stream
    octets: bytes


Request = Union[Tick, Given, Framed]


@dataclass(frozen=True)
class Bounds:
    """What the numbers of a request may be at the most: a cabinet, and the ticks that are left in the round."""

    cabinets: int
    ticks: int


def number(word: bytes, most: int, fault: str) -> int:
    """Returns the number of a word, from 1 to the most there may be."""
    if not re.fullmatch(rb"[1-9][0-9]{0,9}", word) or int(word) > most:
        raise NotTaken(fault)
    return int(word)


def flag(word: bytes) -> bool:
    """Returns whether a detector or an input turns on; the word is on or off."""
    if word not in (b"on", b"off"):
        raise NotTaken("on")
    return word == b"on"


def stream(word: bytes) -> Stream:
    """Returns the stream that a word names."""
    if word not in STREAMS:
        raise NotTaken("stream")
    return STREAMS[word]


def octets(word: bytes) -> bytes:
    """Returns the octets of hexadecimal digits."""
    if not re.fullmatch(rb"(?:[0-9A-Fa-f]{2}){0,%d}" % MOST_OCTETS, word):
        raise NotTaken("hex")
    return bytes.fromhex(word.decode())


def tick(words: list[bytes], bounds: Bounds) -> Request:
    """Returns the request of ticks."""
    return Tick(number(words[0], bounds.ticks, "ticks"))


def detector(words: list[bytes], bounds: Bounds) -> Request:
    """Returns the request of a vehicle detector."""
    cabinet = number(words[0], bounds.cabinets, "cabinet")
    return Given(cabinet, Detector(number(words[1], 16, "phase"), flag(words[2])))


def button(words: list[bytes], bounds: Bounds) -> Request:
    """Returns the request of a push button."""
    cabinet = number(words[0], bounds.cabinets, "cabinet")
    return Given(cabinet, Button(number(words[1], 16, "phase")))


def preempt(words: list[bytes], bounds: Bounds) -> Request:
    """Returns the request of a preempt's input."""
    cabinet = number(words[0], bounds.cabinets, "cabinet")
    return Given(cabinet, PreemptInput(number(words[1], 8, "number"), flag(words[2])))


def frame(words: list[bytes], bounds: Bounds) -> Request:
    """Returns the request of a frame."""
    return Framed(number(words[0], bounds.cabinets, "cabinet"), stream(words[1]), octets(words[2]))


Reader = Callable[[list[bytes], Bounds], Request]
REQUESTS: dict[bytes, tuple[int, Reader]] = {
    b"tick": (1, tick),
    b"veh": (3, detector),
    b"ped": (2, button),
    b"preempt": (3, preempt),
    b"frame": (3, frame),
}
"""By its first word, how many words follow in a request, and how they are read."""


def request_of(line: bytes, bounds: Bounds) -> Request:
    """Returns the request of a line without its newline."""
    first, *words = line.split(b" ")
    count, read = REQUESTS.get(first, (-1, tick))
    if len(line) > LONGEST_LINE or len(words) != count:
        raise NotTaken("request")
    return read(words, bounds)
