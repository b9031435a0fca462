"""Values as SNMP writes them: the basic encoding rules of ITU-T X.690, as far as RFC 1157 and RFC 2578 use them.

The reader takes what these documents allow and nothing else: tags of one octet; definite lengths, which end where the
octets do; numbers in the fewest octets and in their range; names of at most 128 arcs. Else it raises `Malformed`.
"""

import functools
from typing import NamedTuple

INTEGER, OCTETS, NULL, NAME, LIST = 0x02, 0x04, 0x05, 0x06, 0x30
ADDRESS, COUNTER, GAUGE, TIME_TICKS, OPAQUE, COUNTER64 = 0x40, 0x41, 0x42, 0x43, 0x44, 0x46
"""The application types of RFC 2578: IpAddress, Counter32, Gauge32 or Unsigned32, TimeTicks, Opaque, Counter64."""
NO_SUCH_OBJECT, NO_SUCH_INSTANCE, END_OF_VIEW = 0x80, 0x81, 0x82
"""Tags that replace a value in a Response of version 2c (RFC 3416)."""
UNSIGNED = {COUNTER: 1 << 32, GAUGE: 1 << 32, TIME_TICKS: 1 << 32, COUNTER64: 1 << 64}
EMPTY = (NULL, NO_SUCH_OBJECT, NO_SUCH_INSTANCE, END_OF_VIEW)
MOST_ARCS, ARC_END = 128, 1 << 32
INTEGER_OCTETS, LENGTH_OCTETS = 4, 4
SHORT, MOST_KEPT = 32, 8192
"""The octets, or the arcs, of the longest name that is kept once it was read or written, and how many are kept:
managers ask for the same names again and again."""

Arcs = tuple[int, ...]


class Malformed(ValueError):
    """Octets are not what they should be."""


class Field(NamedTuple):
    """A value: its tag and the octets of its content."""

    tag: int
    content: bytes


# reading


def fields(octets: bytes) -> list[Field]:
    """Returns the values that follow each other in octets, which they fill to the end."""
    found, at, end = [], 0, len(octets)
    while at < end:
        tag = octets[at]
        length, start = length_at(octets, at + 1)
        at = start + length
        if tag & 0x1F == 0x1F or at > end:
            raise Malformed("a tag of several octets" if at <= end else "a value goes over the end")
        found.append(Field(tag, octets[start:at]))
    return found


def length_at(octets: bytes, at: int) -> tuple[int, int]:
    """Returns the length that begins at a place, and the place after it: one octet below 128, or 81 to 84 hexadecimal
    followed by 1 to 4 octets."""
    if at >= len(octets):
        raise Malformed("a length is missing")
    first = octets[at]
    if first < 0x80:
        return first, at + 1
    start, size = at + 1, first - 0x80
    if not 1 <= size <= LENGTH_OCTETS or start + size > len(octets):
        raise Malformed("a length is not definite")
    return int.from_bytes(octets[start : start + size], "big"), start + size


def several(octets: bytes, count: int) -> list[Field]:
    """Returns the values in octets; raises Malformed if their number isn't `count`."""
    found = fields(octets)
    if len(found) != count:
        raise Malformed(f"{len(found)} values in place of {count}")
    return found


def content_of(field: Field, tag: int) -> bytes:
    """Returns the content of a value that has a tag."""
    if field.tag != tag:
        raise Malformed(f"tag {field.tag} in place of {tag}")
    return field.content


def number_of(content: bytes) -> int:
    """Returns the number of an INTEGER's content: 1 to 4 octets, the fewest."""
    if not 1 <= len(content) <= INTEGER_OCTETS:
        raise Malformed("an INTEGER without octets, or of more than 32 bits")
    value = int.from_bytes(content, "big", signed=True)
    if len(content) > 1 and len(content) > octets_for(value):
        raise Malformed("an INTEGER has more octets than it needs")
    return value


def unsigned_of(content: bytes, end: int = 1 << 32) -> int:
    """Returns the number of the content of a Counter, Gauge or TimeTicks: from 0 up to, not including, `end`."""
    value = int.from_bytes(content, "big", signed=True)
    if not content or len(content) > octets_for(value) or not 0 <= value < end:
        raise Malformed("an unsigned number is out of its range")
    return value


def octets_for(value: int) -> int:
    """Returns how many octets a number needs, with its sign."""
    return (value if value >= 0 else ~value).bit_length() // 8 + 1


def arcs_of(content: bytes) -> Arcs:
    """Returns the arcs of a name from its content: each in seven bits an octet, without a leading 128, below 2^32."""
    return kept_arcs(content) if len(content) <= SHORT else arcs_in(content)


@functools.lru_cache(MOST_KEPT)
def kept_arcs(content: bytes) -> Arcs:
    """Returns the arcs of a short name."""
    return arcs_in(content)


def arcs_in(content: bytes) -> Arcs:
    """Reads the arcs of a name."""
    found, value, is_open = [], 0, False
    for octet in content:
        if octet == 0x80 and not is_open:
            raise Malformed("an arc has more octets than it needs")
        value, is_open = value << 7 | octet & 0x7F, octet >= 0x80
        if value >= ARC_END:
            raise Malformed("an arc of more than 32 bits")
        if not is_open:
            found.append(value)
            value = 0
    if is_open or not 1 <= len(found) < MOST_ARCS:
        raise Malformed("a name that is empty, too long, or cut off")
    first = min(found[0] // 40, 2)
    return (first, found[0] - 40 * first, *found[1:])


def checked(value: Field) -> Field:
    """Returns the value of a binding, if its content is one of its type."""
    tag, content = value
    if tag == INTEGER:
        number_of(content)
    elif tag in UNSIGNED:
        unsigned_of(content, UNSIGNED[tag])
    elif tag == NAME:
        arcs_of(content)
    elif tag in EMPTY and content or tag == ADDRESS and len(content) != 4:
        raise Malformed(f"a value of tag {tag} with {len(content)} octets")
    elif tag not in (OCTETS, OPAQUE, ADDRESS, *EMPTY):
        raise Malformed(f"a value of tag {tag}")
    return value


# writing


def field(tag: int, content: bytes) -> bytes:
    """Returns a value's octets: its tag, its length in the shortest form, its content."""
    length = len(content)
    if length < 0x80:
        return bytes((tag, length)) + content
    digits = length.to_bytes((length.bit_length() + 7) // 8, "big")
    return bytes((tag, 0x80 + len(digits))) + digits + content


def number_content(value: int) -> bytes:
    """Returns the content of a number in the fewest octets."""
    return value.to_bytes(octets_for(value), "big", signed=True)


def integer(value: int) -> bytes:
    """Returns the octets of an INTEGER."""
    return field(INTEGER, number_content(value))


def arc(value: int) -> bytes:
    """Returns the octets of an arc: seven bits in each, the high ones first."""
    octets = [value & 0x7F]
    while value := value >> 7:
        octets.append(value & 0x7F | 0x80)
    return bytes(reversed(octets))


def name_content(arcs: Arcs) -> bytes:
    """Returns the content of the OBJECT IDENTIFIER of at least two arcs."""
    return b"".join(map(arc, (40 * arcs[0] + arcs[1], *arcs[2:])))


def name_of(arcs: Arcs) -> bytes:
    """Returns the octets of the OBJECT IDENTIFIER of at least two arcs."""
    return kept_name(arcs) if len(arcs) <= SHORT else field(NAME, name_content(arcs))


@functools.lru_cache(MOST_KEPT)
def kept_name(arcs: Arcs) -> bytes:
    """Returns the octets of a short name."""
    return field(NAME, name_content(arcs))
