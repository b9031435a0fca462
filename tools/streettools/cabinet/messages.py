"""Messages of SNMP version 1 (RFC 1157), as a client writes and reads them."""

from typing import NamedTuple

from ..shared.ber import INTEGER, NULL, OCTETS, Arcs, Field, Malformed, field, integer, name_of, number_content
from ..shared.snmp import GET, GET_NEXT, RESPONSE, SET, V1, Binding, Message, head_of, message_of, octets_of

__all__ = [
    "GET", "GET_NEXT", "INTEGER", "OCTETS", "RESPONSE", "SET", "Malformed", "Reply", "field", "integer", "kind_of",
    "message", "name_of", "reply_of", "value_of",
]  # fmt: skip


class Reply(NamedTuple):
    """A Response: the number of its request, status and index, and the bindings, each a name, a tag and the octets of
    the value."""

    number: int
    status: int
    index: int  # type: ignore[assignment]
    bindings: list[tuple[Arcs, int, bytes]]


def given(value: int | bytes | None) -> Field:
    """Returns a number, some octets, or None as a value."""
    if value is None:
        return Field(NULL, b"")
    return Field(INTEGER, number_content(value)) if isinstance(value, int) else Field(OCTETS, value)


def value_of(value: int | bytes | None) -> bytes:
    """Returns the octets of such a value."""
    return field(*given(value))


def message(
    kind: int, number: int, bindings: list[tuple[Arcs, int | bytes | None]], community: bytes = b"public"
) -> bytes:
    """Returns a message: GET, GET_NEXT or SET, the number of the request, and pairs of a name's arcs and a value."""
    pairs = [Binding(arcs, given(value)) for arcs, value in bindings]
    return octets_of(Message(V1, community, kind, number, 0, 0, pairs))


def kind_of(octets: bytes) -> int:
    """Returns the kind of a message."""
    return head_of(octets)[0].kind


def reply_of(octets: bytes) -> Reply:
    """Returns what a message says in the terms of a Response; `Malformed` is raised if octets are none."""
    found = message_of(octets)
    return Reply(found.number, found.first, found.second, [(it.arcs, *it.value) for it in found.bindings])
