"""Messages in words, with the names of objects by the MIB."""

from ...cabinet.messages import reply_of
from ...shared.answers import ERRORS
from ...shared.ber import INTEGER, NULL, OCTETS, Arcs, Field, Malformed, number_of
from ...shared.mib import names
from ...shared.oids import dotted
from ...shared.snmp import BULK, GET, GET_NEXT, RESPONSE, SET, Binding, message_of

KINDS = {GET: "Get", GET_NEXT: "GetNext", SET: "Set", RESPONSE: "Response", BULK: "GetBulk"}
MOST_SHOWN, MOST_ARCS, MOST_TEXT = 6, 20, 160
"""How many bindings of a message are shown, how many arcs of a name, and how many signs of a value."""


def named(arcs: Arcs) -> str:
    """Returns the name of an instance: that of its object and what follows, else its arcs with dots. What is longer
    than any name of the MIB is clipped."""
    shown, rest = arcs[:MOST_ARCS], "…" if len(arcs) > MOST_ARCS else ""
    for length in range(len(shown), 7, -1):
        if name := names().get(shown[:length]):
            return ".".join([name, *map(str, shown[length:])]) + rest
    return dotted(shown) + rest


def clipped(text: str) -> str:
    """Returns a text, or the beginning of one that is long."""
    return text if len(text) <= MOST_TEXT else text[: MOST_TEXT - 1] + "…"


def value_text(value: Field) -> str:
    """Returns a value as text."""
    tag, content = value
    if tag == INTEGER:
        return str(number_of(content))
    if tag == OCTETS:
        return clipped(content[:MOST_TEXT].hex(" ")) or "no octets"
    return "" if tag == NULL else clipped(f"type {tag}, {content[:MOST_TEXT].hex()}")


def bindings_text(bindings: list[Binding], with_values: bool) -> str:
    """Returns the bindings of a message as text."""
    shown = []
    for arcs, it in bindings[:MOST_SHOWN]:
        value = value_text(it) if with_values else ""
        shown.append(f"{named(arcs)} = {value}" if value else named(arcs))
    more = len(bindings) - MOST_SHOWN
    return ", ".join(shown) + (f" and {more} more" if more > 0 else "")


def asked_text(octets: bytes) -> str:
    """Returns a message of management software in words."""
    try:
        found = message_of(octets)
    except Malformed:
        return f"{len(octets)} octets that are not a message"
    return f"{KINDS[found.kind]} {bindings_text(found.bindings, found.kind == SET)}"


def answered_text(octets: bytes | None) -> str:
    """Returns a reply in words."""
    if octets is None:
        return "silence"
    found = message_of(octets)
    if found.first:
        error = ERRORS.get(found.first, f"error {found.first}")
        return f"{error} at {found.second}"
    return bindings_text(found.bindings, True)


def numbers_of(octets: bytes) -> list[int]:
    """Returns the numbers of a reply's bindings, 0 for what is none."""
    return [int.from_bytes(it, "big", signed=True) if tag == INTEGER else 0 for _, tag, it in reply_of(octets).bindings]


def values_of(octets: bytes) -> list[int | tuple[int, ...]]:
    """Returns the numbers and the octets of a reply's bindings."""
    return [
        tuple(it) if tag == OCTETS else int.from_bytes(it, "big", signed=True)
        for _, tag, it in reply_of(octets).bindings
    ]
