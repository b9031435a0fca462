"""The cabinet as the front asks it: single objects by messages of version 1."""

import functools

from ...shared.ber import INTEGER, NULL, Arcs, Field, number_of
from ...shared.snmp import GET, GET_NEXT, SET, V1, Binding, Message, message_of, octets_of
from ..street import Street
from .pdus import NO_SUCH_NAME

NOTHING = Field(NULL, b"")
MOST_KEPT = 1024
"""How many messages of the front's own are kept: its objects ask for the same ones again and again."""


class Silent(Exception):
    """The cabinet doesn't answer, as when the street begins a new session."""


@functools.lru_cache(MOST_KEPT)
def asking_for(community: bytes, names: tuple[Arcs, ...]) -> bytes:
    """Returns the octets of a Get of some objects."""
    return octets_of(Message(V1, community, GET, 1, 0, 0, [Binding(name, NOTHING) for name in names]))


class Side:
    """A cabinet of the street. What is asked here belongs to the turn of one datagram."""

    def __init__(self, street: Street, cabinet: int) -> None:
        self.street = street
        self.cabinet = cabinet

    async def ask(self, kind: int, bindings: list[Binding], number: int = 1) -> Message:
        """Returns the reply to a message."""
        octets = await self.street.message(self.cabinet, self.octets(kind, bindings, number))
        if octets is None:
            raise Silent
        return message_of(octets)

    def octets(self, kind: int, bindings: list[Binding], number: int = 1) -> bytes:
        """Returns the octets of a message."""
        return octets_of(Message(V1, self.street.community(), kind, number, 0, 0, bindings))

    async def get(self, names: list[Arcs]) -> dict[Arcs, Field | None]:
        """Returns the values of some objects; None for one that doesn't exist."""
        known: dict[Arcs, Field | None] = {}
        wanted = list(dict.fromkeys(names))
        while wanted:
            octets = await self.street.message(self.cabinet, asking_for(self.street.community(), tuple(wanted)))
            if octets is None:
                raise Silent
            reply = message_of(octets)
            if reply.first == 0:
                return known | {it.arcs: it.value for it in reply.bindings}
            if reply.first != NO_SUCH_NAME:
                return known | dict.fromkeys(wanted)
            known[wanted.pop(reply.second - 1)] = None
        return known

    async def numbers(self, *names: Arcs) -> list[int]:
        """Returns the numbers of some objects, 0 for what is none."""
        found = await self.get(list(names))
        return [number_in(found[name]) for name in names]

    async def next(self, name: Arcs) -> Binding | None:
        """Returns the first object after a name, None after the last."""
        reply = await self.ask(GET_NEXT, [Binding(name, NOTHING)])
        return reply.bindings[0] if reply.first == 0 else None

    async def set(self, bindings: list[Binding], number: int = 1) -> tuple[int, int]:
        """Sets some objects; returns status and index of the reply."""
        reply = await self.ask(SET, bindings, number)
        return reply.first, reply.second

    async def set_and_look(self, bindings: list[Binding], names: list[Arcs]) -> tuple[int, list[int]]:
        """Sets some objects and reads others, so that nothing comes between; returns the status of the first reply and
        the numbers of the second."""
        reading = [Binding(name, NOTHING) for name in names]
        replies = await self.street.messages(self.cabinet, [self.octets(SET, bindings), self.octets(GET, reading)])
        if None in replies:
            raise Silent
        done, seen = (message_of(octets) for octets in replies if octets is not None)
        return done.first, [number_in(it.value) for it in seen.bindings]


def number_in(value: Field | None) -> int:
    """Returns the number that a value is, 0 for what is none."""
    return number_of(value.content) if value is not None and value.tag == INTEGER else 0
