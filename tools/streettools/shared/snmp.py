"""Messages of SNMP versions 1 and 2c (RFC 1157, RFC 3416): the one reader and writer of all tools."""

from typing import NamedTuple

from .ber import (
    INTEGER,
    LIST,
    NAME,
    OCTETS,
    Arcs,
    Field,
    Malformed,
    arcs_of,
    checked,
    content_of,
    field,
    fields,
    integer,
    name_of,
    number_of,
    several,
)

GET, GET_NEXT, RESPONSE, SET, BULK = 0xA0, 0xA1, 0xA2, 0xA3, 0xA5
V1, V2C = 0, 1
KINDS = {V1: (GET, GET_NEXT, RESPONSE, SET), V2C: (GET, GET_NEXT, RESPONSE, SET, BULK)}


class Binding(NamedTuple):
    """A binding: the name of an object, and its value."""

    arcs: Arcs
    value: Field


class Message(NamedTuple):
    """A message. `first` and `second` are the error status and index; of a GetBulk the non-repeaters and the
    repetitions."""

    version: int
    community: bytes
    kind: int
    number: int
    first: int
    second: int
    bindings: list[Binding]


def number_in(field: Field) -> int:
    """Returns the number of an INTEGER."""
    return number_of(content_of(field, INTEGER))


def head_of(octets: bytes) -> tuple[Message, bytes]:
    """Returns the message that octets are, without its bindings, and the octets of these; `Malformed` is raised if they
    are none."""
    (whole,) = several(octets, 1)
    version, community, (kind, body) = several(content_of(whole, LIST), 3)
    number, first, second, pairs = several(body, 4)
    found = Message(
        number_in(version),
        content_of(community, OCTETS),
        kind,
        number_in(number),
        number_in(first),
        number_in(second),
        [],
    )
    octets_of_pairs = content_of(pairs, LIST)
    if found.kind not in KINDS.get(found.version, ()):
        raise Malformed(f"version {found.version} has no message of tag {found.kind}")
    return found, octets_of_pairs


def bindings_of(pairs: bytes) -> list[Binding]:
    """Returns the bindings that follow each other in octets."""
    return [binding_of(content_of(pair, LIST)) for pair in fields(pairs)]


def message_of(octets: bytes) -> Message:
    """Returns the message that octets are; `Malformed` is raised if they are none."""
    head, pairs = head_of(octets)
    return head._replace(bindings=bindings_of(pairs))


def binding_of(pair: bytes) -> Binding:
    """Returns the binding of a name and a value."""
    name, value = several(pair, 2)
    return Binding(arcs_of(content_of(name, NAME)), checked(value))


def octets_of(message: Message) -> bytes:
    """Returns the octets of a message."""
    pairs = b"".join(field(LIST, name_of(it.arcs) + field(*it.value)) for it in message.bindings)
    body = integer(message.number) + integer(message.first) + integer(message.second) + field(LIST, pairs)
    return field(LIST, integer(message.version) + field(OCTETS, message.community) + field(message.kind, body))
