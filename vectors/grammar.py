"""Which octets are a message of SNMP version 1 (RFC 1157), by the encoding rules of ITU-T X.690 and the limits that
corpora/snmp/README.md names.

It is written for the scripts beside, from the standards, and shares nothing with the program.
"""

from typing import NamedTuple

INTEGER, OCTETS, NULL, NAME, LIST = 2, 4, 5, 6, 0x30
GET, GET_NEXT, RESPONSE, SET = 0xA0, 0xA1, 0xA2, 0xA3
MOST_OCTETS, MOST_BINDINGS, MOST_ARCS, MOST_COMMUNITY, MOST_VALUE = 1472, 32, 32, 32, 64


class NoMessage(Exception):
    """The octets are no message."""


class Message(NamedTuple):
    """A message: its community, kind, number, status and index, and its bindings, each a name's arcs, the tag and the
    value."""

    community: bytes
    kind: int
    number: int
    status: int
    index: int
    bindings: tuple


def need(holds):
    """Goes on only where a condition holds."""
    if not holds:
        raise NoMessage


def length_at(octets):
    """Returns the length at the front of some octets, and the octets behind it: one octet, or a count of up to four
    (8.1.3)."""
    need(octets)
    first, rest = octets[0], octets[1:]
    if first < 128:
        return first, rest
    size = first - 128
    need(1 <= size <= 4 and size <= len(rest))
    return int.from_bytes(rest[:size], "big"), rest[size:]


def content_at(tag, octets):
    """Returns the content under a tag at the front of some octets, and the octets behind it."""
    need(octets and octets[0] == tag)
    length, rest = length_at(octets[1:])
    need(length <= len(rest))
    return rest[:length], rest[length:]


def integer_at(octets):
    """Returns the INTEGER at the front of some octets: one to four of them, as few as it takes (8.3)."""
    content, rest = content_at(INTEGER, octets)
    need(1 <= len(content) <= 4)
    need(len(content) == 1 or content[0] * 2 + (content[1] >> 7) not in (0, 0x1FF))
    return int.from_bytes(content, "big", signed=True), rest


def arcs_at(octets):
    """Returns the arcs of the OBJECT IDENTIFIER at the front of some octets (8.19)."""
    content, rest = content_at(NAME, octets)
    need(content and content[0] < 128)
    first = min(content[0] // 40, 2)
    arcs, value, begun = [first, content[0] - 40 * first], 0, False
    for octet in content[1:]:
        need(begun or octet != 128)
        value, begun = value << 7 | octet & 127, octet >= 128
        need(value < 1 << 32)
        if not begun:
            arcs.append(value)
            value = 0
    need(not begun and len(arcs) <= MOST_ARCS)
    return tuple(arcs), rest


def value_at(octets):
    """Returns the tag and the value at the front of some octets."""
    need(octets)
    tag = octets[0]
    if tag == INTEGER:
        value, rest = integer_at(octets)
    elif tag == NAME:
        value, rest = arcs_at(octets)
    else:
        need(tag in (OCTETS, NULL))
        value, rest = content_at(tag, octets)
        need(len(value) <= (MOST_VALUE if tag == OCTETS else 0))
    return tag, value, rest


def bindings_of(octets):
    """Returns the bindings that some octets are, one after another."""
    found = []
    while octets:
        pair, octets = content_at(LIST, octets)
        arcs, rest = arcs_at(pair)
        tag, value, rest = value_at(rest)
        need(not rest)
        found.append((arcs, tag, value))
    need(len(found) <= MOST_BINDINGS)
    return tuple(found)


def message_of(octets):
    """Returns the message that some octets are, or None where they are none."""
    try:
        need(len(octets) <= MOST_OCTETS)
        content, rest = content_at(LIST, octets)
        version, inner = integer_at(content)
        community, inner = content_at(OCTETS, inner)
        need(not rest and version == 0 and len(community) <= MOST_COMMUNITY and inner)
        kind = inner[0]
        need(GET <= kind <= SET)
        body, behind = content_at(kind, inner)
        number, body = integer_at(body)
        status, body = integer_at(body)
        index, body = integer_at(body)
        pairs, body = content_at(LIST, body)
        need(not behind and not body)
        return Message(community, kind, number, status, index, bindings_of(pairs))
    except NoMessage:
        return None
