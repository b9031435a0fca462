"""What the front answers to a message: values, the statuses of both versions, the Response."""

import functools

from ...shared.ber import INTEGER, NULL, OCTETS, Field, Malformed, integer, length_at, number_content
from ...shared.snmp import (
    BULK, GET, GET_NEXT, RESPONSE, SET, V1, V2C, Binding, Message, bindings_of, head_of, octets_of,
)  # fmt: skip

ASKING = (GET, GET_NEXT, SET, BULK)
TOO_BIG, NO_SUCH_NAME, BAD_VALUE, GEN_ERR = 1, 2, 3, 5
"""Error statuses of version 1 (RFC 1157)."""
WRONG_TYPE, WRONG_LENGTH, WRONG_VALUE, NO_CREATION, INCONSISTENT_VALUE = 7, 8, 10, 11, 12
RESOURCE_UNAVAILABLE, NOT_WRITABLE = 13, 17
"""Error statuses of version 2c (RFC 3416)."""
OLDER = {
    WRONG_TYPE: BAD_VALUE, WRONG_LENGTH: BAD_VALUE, WRONG_VALUE: BAD_VALUE, INCONSISTENT_VALUE: BAD_VALUE,
    NO_CREATION: NO_SUCH_NAME, NOT_WRITABLE: NO_SUCH_NAME, RESOURCE_UNAVAILABLE: GEN_ERR,
}  # fmt: skip
"""The statuses of version 1 for those of version 2c, by RFC 3584."""
MOST_OCTETS = 1472
MOST_KEPT, SHORT = 512, 512
"""How many lists of bindings are kept once they were read, and the octets of the longest: managers ask for the same
objects again and again."""
VERSIONS = {version: integer(version) for version in (V1, V2C)}


class Fault(Exception):
    """A message can't be carried out: the status, in terms of version 2c, and the index of its reply."""

    def __init__(self, status: int, index: int) -> None:
        super().__init__(f"status {status}, index {index}")
        self.status, self.index = status, index


def whole(value: int, tag: int = INTEGER) -> Field:
    """Returns a number as a value."""
    return Field(tag, number_content(value))


def text(octets: bytes) -> Field:
    """Returns octets as a value."""
    return Field(OCTETS, octets)


def asked_of(octets: bytes) -> Message | None:
    """Returns the message that asks for something; None if octets are none in versions 1 and 2c."""
    try:
        head, pairs = head_of(octets)
        bindings = list(kept_bindings(pairs)) if len(pairs) <= SHORT else bindings_of(pairs)
    except Malformed:
        return None
    return head._replace(bindings=bindings) if head.kind in ASKING else None


@functools.lru_cache(MOST_KEPT)
def kept_bindings(pairs: bytes) -> tuple[Binding, ...]:
    """Returns the bindings that follow each other in octets."""
    return tuple(bindings_of(pairs))


def in_version(octets: bytes, before: int, after: int) -> bytes | None:
    """Returns the octets of a message of one version as one of the other, None if its version has an unusual form."""
    _, at = length_at(octets, 1)
    old = VERSIONS[before]
    return octets[:at] + VERSIONS[after] + octets[at + len(old) :] if octets.startswith(old, at) else None


def asks_nothing_else(asked: Message) -> bool:
    """Tells whether no binding of a message has a value."""
    return all(it.value.tag == NULL for it in asked.bindings)


def response(asked: Message, bindings: list[Binding], status: int = 0, index: int = 0) -> bytes:
    """Returns the octets of the Response to a message, however many they are."""
    if asked.version == V1:
        status = OLDER.get(status, status)
    return octets_of(asked._replace(kind=RESPONSE, first=status, second=index, bindings=bindings))


def reply(asked: Message, bindings: list[Binding], status: int = 0, index: int = 0) -> bytes:
    """Returns the octets of the Response to a message; that it would be too big, if it would."""
    made = response(asked, bindings, status, index)
    if len(made) <= MOST_OCTETS:
        return made
    return response(asked, asked.bindings if asked.version == V1 else [], TOO_BIG)


def cut_reply(asked: Message, bindings: list[Binding]) -> bytes:
    """Returns the octets of the Response to a GetBulk, with as many bindings as there is room for."""
    assert asked.version == V2C
    made = response(asked, bindings)
    while len(made) > MOST_OCTETS:
        over = len(made) - MOST_OCTETS
        while over > 0:
            *bindings, last = bindings
            over -= len(octets_of(asked._replace(bindings=[last]))) - len(octets_of(asked._replace(bindings=[])))
        made = response(asked, bindings)
    return made
