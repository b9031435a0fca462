"""Messages of SNMP version 1, both ways.

RFC 1157; docs/DEFINITIONS.md, "Messages (RFC 1157, ITU-T X.690)"; docs/SNMP-CONFORMANCE.md.
"""

from dataclasses import dataclass, field
from enum import Enum
from typing import Union

from model import ber
from model.ber import Unreadable, demand
from model.names import Oid

MOST_COMMUNITY, MOST_VALUE, MOST_BINDS, MOST_OCTETS = 32, 64, 32, 1472

Value = Union[int, bytes, None, Oid]
"""An INTEGER, an OCTET STRING, NULL or an OBJECT IDENTIFIER."""


class Pdu(Enum):
    """The kinds of messages, by their tags."""

    GET = 0xA0
    NEXT = 0xA1
    RESPONSE = 0xA2
    SET = 0xA3


@dataclass(frozen=True)
class Bind:
    """A name with a value."""

    oid: Oid
    value: Value


@dataclass(frozen=True)
class Message:
    """A message of version 1."""

    community: bytes
    pdu: Pdu
    id: int
    status: int = 0
    index: int = 0
    binds: list[Bind] = field(default_factory=list)


def read_value(octets: bytes, at: int) -> tuple[Value, int]:
    """Reads the value of a binding."""
    demand(at < len(octets))
    tag = octets[at]
    content, end = ber.read_content(octets, at, tag)
    if tag == ber.INTEGER:
        return ber.number_of(content), end
    if tag == ber.OCTET_STRING:
        demand(len(content) <= MOST_VALUE)
        return content, end
    if tag == ber.NULL:
        demand(content == b"")
        return None, end
    demand(tag == ber.OBJECT_IDENTIFIER)
    return ber.name_of(content), end


def read_bind(content: bytes) -> Bind:
    """Reads a binding."""
    name, at = ber.read_content(content, 0, ber.OBJECT_IDENTIFIER)
    value, end = read_value(content, at)
    demand(end == len(content))
    return Bind(ber.name_of(name), value)


def read_binds(content: bytes) -> list[Bind]:
    """Reads a list of bindings."""
    binds, at = [], 0
    while at < len(content):
        one, at = ber.read_content(content, at, ber.SEQUENCE)
        binds.append(read_bind(one))
        demand(len(binds) <= MOST_BINDS)
    return binds


def read_number(octets: bytes, at: int) -> tuple[int, int]:
    """Reads an INTEGER."""
    content, end = ber.read_content(octets, at, ber.INTEGER)
    return ber.number_of(content), end


def read_whole(octets: bytes) -> Message:
    """Reads a message that takes all octets."""
    demand(len(octets) <= MOST_OCTETS)
    inner, end = ber.read_content(octets, 0, ber.SEQUENCE)
    demand(end == len(octets))
    version, at = read_number(inner, 0)
    community, at = ber.read_content(inner, at, ber.OCTET_STRING)
    demand(version == 0 and len(community) <= MOST_COMMUNITY and at < len(inner))
    demand(any(pdu.value == inner[at] for pdu in Pdu))
    pdu = Pdu(inner[at])
    content, end = ber.read_content(inner, at, pdu.value)
    demand(end == len(inner))
    number, at = read_number(content, 0)
    status, at = read_number(content, at)
    index, at = read_number(content, at)
    binds, end = ber.read_content(content, at, ber.SEQUENCE)
    demand(end == len(content))
    return Message(community, pdu, number, status, index, read_binds(binds))


def read(octets: bytes) -> Message | None:
    """Returns the message that the octets are; None where they are none."""
    try:
        return read_whole(octets)
    except Unreadable:
        return None


def value_field(value: Value) -> bytes:
    """Returns the octets of a value."""
    if value is None:
        return ber.field(ber.NULL, b"")
    if isinstance(value, int):
        return ber.number_field(value)
    return ber.field(ber.OCTET_STRING, value) if isinstance(value, bytes) else ber.name_field(value)


def write(message: Message) -> bytes:
    """Returns the octets of a message, all lengths and numbers as short as they can be."""
    binds = b"".join(ber.field(ber.SEQUENCE, ber.name_field(it.oid) + value_field(it.value)) for it in message.binds)
    numbers = b"".join(map(ber.number_field, (message.id, message.status, message.index)))
    pdu = ber.field(message.pdu.value, numbers + ber.field(ber.SEQUENCE, binds))
    return ber.field(ber.SEQUENCE, ber.number_field(0) + ber.field(ber.OCTET_STRING, message.community) + pdu)
