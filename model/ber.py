"""Lengths, numbers, texts and names as octets, both ways.

ITU-T X.690 as RFC 1157 takes it; docs/DEFINITIONS.md, "Messages (RFC 1157, ITU-T X.690)". A reader takes the octets and
the place at which a field begins, and returns the field and the place after it. It raises `Unreadable` if the octets
aren't a field of this type.
"""

import functools

from model.names import Oid

INTEGER, OCTET_STRING, NULL, OBJECT_IDENTIFIER, SEQUENCE = 0x02, 0x04, 0x05, 0x06, 0x30
MOST_ARCS = 32


class Unreadable(Exception):
    """The octets aren't the expected field."""


def demand(holds: bool) -> None:
    """Raises Unreadable if a condition doesn't hold."""
    if not holds:
        raise Unreadable


def read_length(octets: bytes, at: int) -> tuple[int, int]:
    """Reads a length: one octet below 128, or 81 to 84 followed by 1 to 4 octets. The indefinite form is invalid."""
    demand(at < len(octets))
    first = octets[at]
    if first < 0x80:
        return first, at + 1
    count = first - 0x80
    demand(1 <= count <= 4 and at + 1 + count <= len(octets))
    return int.from_bytes(octets[at + 1 : at + 1 + count], "big"), at + 1 + count


def read_content(octets: bytes, at: int, tag: int) -> tuple[bytes, int]:
    """Reads the content of a field with this tag."""
    demand(at < len(octets) and octets[at] == tag)
    length, start = read_length(octets, at + 1)
    demand(start + length <= len(octets))
    return octets[start : start + length], start + length


def number_of(content: bytes) -> int:
    """Returns the number of an INTEGER's content: 1 to 4 octets, no more than it needs."""
    demand(1 <= len(content) <= 4)
    if len(content) > 1:
        demand(not (content[0] == 0x00 and content[1] < 0x80) and not (content[0] == 0xFF and content[1] >= 0x80))
    return int.from_bytes(content, "big", signed=True)


@functools.lru_cache(maxsize=8192)
def name_of(content: bytes) -> Oid:
    """Returns the name of an OBJECT IDENTIFIER's content: 2 to 32 arcs below 2^32, the first two in one octet below
    128."""
    demand(len(content) >= 1 and content[0] < 0x80)
    first = min(content[0] // 40, 2)
    arcs, arc, is_open = [first, content[0] - 40 * first], 0, False
    for octet in content[1:]:
        demand(is_open or octet != 0x80)
        arc, is_open = arc << 7 | octet & 0x7F, octet >= 0x80
        demand(arc < 1 << 32)
        if not is_open:
            arcs.append(arc)
            arc = 0
    demand(not is_open and len(arcs) <= MOST_ARCS)
    return tuple(arcs)


def field(tag: int, content: bytes) -> bytes:
    """Returns the octets of a field, with the shortest length."""
    size = len(content)
    if size < 0x80:
        return bytes((tag, size)) + content
    digits = size.to_bytes((size.bit_length() + 7) // 8, "big")
    return bytes((tag, 0x80 + len(digits))) + digits + content


def number_field(number: int) -> bytes:
    """Returns the octets of an INTEGER, as few as it needs."""
    size = next(n for n in (1, 2, 3, 4) if -(1 << 8 * n - 1) <= number < 1 << 8 * n - 1)
    return field(INTEGER, number.to_bytes(size, "big", signed=True))


def arc_octets(arc: int) -> bytes:
    """Returns the octets of an arc after the first two: seven bits each, all but the last with the high bit."""
    octets = [arc & 0x7F]
    while arc := arc >> 7:
        octets.append(arc & 0x7F | 0x80)
    return bytes(reversed(octets))


@functools.lru_cache(maxsize=8192)
def name_field(oid: Oid) -> bytes:
    """Returns the octets of an OBJECT IDENTIFIER."""
    return field(OBJECT_IDENTIFIER, bytes((40 * oid[0] + oid[1],)) + b"".join(map(arc_octets, oid[2:])))
