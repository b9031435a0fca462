"""UDP ports of the agents: each datagram goes to a cabinet, and its reply goes back."""

import asyncio
import contextlib
import functools
import ipaddress
import math
import socket
from collections.abc import Awaitable, Callable, Iterator
from dataclasses import dataclass
from typing import Any, cast

from .line import IN, OUT, Copy, Line, Passed

LOOPBACK = "127.0.0.1"
WAITING = 64
"""How many datagrams may wait at a port; one that comes then is lost, as on a street."""
MOST_LATE = 4096
"""How many datagrams of a street may be late at a time on a bad line; further ones are lost."""
ROOM = 1 << 20
"""The bytes that the system is asked to buffer for a port."""

Manager = tuple[str, int]
Asked = Callable[[int, bytes, Manager], Awaitable[bytes | None]]
"""Returns the reply of a cabinet to a datagram from an address and a port, None if it is silent."""


def bracketed(address: str) -> str:
    """Returns an address as it is written before a port: one of version 6 has brackets."""
    return f"[{address}]" if ":" in address else address


@dataclass(frozen=True)
class Place:
    """An address and a port."""

    address: str
    port: int

    def __str__(self) -> str:
        return f"{bracketed(self.address)}:{self.port}"


def places(first: Place, count: int, by_address: bool) -> list[Place]:
    """Returns the places of `count` cabinets: one address and port after the other, or one port at one address after
    the other."""
    if not by_address:
        return [Place(first.address, first.port + at if first.port else 0) for at in range(count)]
    lowest = ipaddress.ip_address(first.address)
    return [Place(str(lowest + at), first.port) for at in range(count)]


@contextlib.contextmanager
def opened(wanted: list[Place]) -> Iterator[list[socket.socket]]:
    """Gives a socket for each place; if one isn't available, none is left open."""
    with contextlib.ExitStack() as stack:
        yield [stack.enter_context(bound(place)) for place in wanted]


def bound(place: Place) -> socket.socket:
    """Returns a socket at a place."""
    family = socket.AF_INET6 if ":" in place.address else socket.AF_INET
    port = socket.socket(family, socket.SOCK_DGRAM)
    try:
        port.setsockopt(socket.SOL_SOCKET, socket.SO_RCVBUF, ROOM)
        port.bind((place.address, place.port))
    except (OSError, OverflowError) as fault:
        port.close()
        raise OSError(
            getattr(fault, "errno", None), getattr(fault, "strerror", str(fault)), f"port {place.port}"
        ) from None
    port.setblocking(False)
    return port


@contextlib.contextmanager
def page_port(place: Place) -> Iterator[socket.socket]:
    """Gives a socket for pages at a place."""
    family = socket.AF_INET6 if ":" in place.address else socket.AF_INET
    with socket.socket(family, socket.SOCK_STREAM) as port:
        port.setsockopt(socket.SOL_SOCKET, socket.SO_REUSEADDR, 1)
        try:
            port.bind((place.address, place.port))
        except OSError as fault:
            raise OSError(fault.errno, fault.strerror, f"port {place.port}") from None
        yield port


def place_of(port: socket.socket) -> Place:
    """Returns where a socket is."""
    return Place(*port.getsockname()[:2])


class Wire:
    """What is between a port and managers: nothing, except for a bad line and a record of messages."""

    def __init__(self, line: Line | None = None, keep: Callable[[Passed], None] | None = None) -> None:
        self.line, self.keep = line, keep
        self.waiting = 0

    def passes(self, way: str, cabinet: int, manager: Manager, octets: bytes, arrives: Callable[[bytes], None]) -> None:
        """Sends a datagram over the line, and gives what arrives of it."""
        if self.keep is None and (self.line is None or self.line.is_perfect()):
            arrives(octets)
            return
        for copy in self.line.passed(cabinet, way, octets) if self.line else [Copy(0.0, octets, ())]:
            is_lost = copy.seconds == math.inf or copy.seconds > 0 and self.waiting >= MOST_LATE
            if self.keep:
                self.keep(Passed(way, cabinet, manager, copy.octets, copy.words, not is_lost))
            if is_lost:
                continue
            if copy.seconds:
                self.waiting += 1
                asyncio.get_running_loop().call_later(copy.seconds, self.comes, copy.octets, arrives)
            else:
                arrives(copy.octets)

    def comes(self, octets: bytes, arrives: Callable[[bytes], None]) -> None:
        """Gives a datagram that was late."""
        self.waiting -= 1
        arrives(octets)


class Agent(asyncio.DatagramProtocol):
    """The agent of a cabinet."""

    def __init__(self, cabinet: int, asked: Asked, wire: Wire | None) -> None:
        self.cabinet = cabinet
        self.asked = asked
        self.wire = wire
        self.tasks: set[asyncio.Task[None]] = set()
        self.transport: asyncio.DatagramTransport

    def connection_made(self, transport: asyncio.BaseTransport) -> None:
        self.transport = cast(asyncio.DatagramTransport, transport)

    def datagram_received(self, data: bytes, client: tuple[Any, ...]) -> None:
        if self.wire is None:
            self.take(client, data)
        else:
            self.wire.passes(IN, self.cabinet, (client[0], client[1]), data, functools.partial(self.take, client))

    def take(self, client: tuple[Any, ...], data: bytes) -> None:
        """Takes a datagram, unless many wait."""
        if len(self.tasks) < WAITING:
            task = asyncio.create_task(self.answer(data, client))
            self.tasks.add(task)
            task.add_done_callback(self.tasks.discard)

    def error_received(self, fault: Exception) -> None:
        """A reply is lost, as when the client has gone."""

    async def answer(self, data: bytes, client: tuple[Any, ...]) -> None:
        """Answers a datagram if the cabinet does."""
        manager = (client[0], client[1])
        reply = await self.asked(self.cabinet, data, manager)
        if reply is None:
            return
        if self.wire is None:
            self.send(client, reply)
        else:
            self.wire.passes(OUT, self.cabinet, manager, reply, functools.partial(self.send, client))

    def send(self, client: tuple[Any, ...], reply: bytes) -> None:
        """Sends a reply, as long as the port is open."""
        if not self.transport.is_closing():
            self.transport.sendto(reply, client)


async def listening(
    sockets: list[socket.socket], asked: Asked, wire: Wire | None = None
) -> list[asyncio.BaseTransport]:
    """Makes the agent of each cabinet answer at its socket."""
    loop = asyncio.get_running_loop()
    made = [
        await loop.create_datagram_endpoint(functools.partial(Agent, number, asked, wire), sock=sock.dup())
        for number, sock in enumerate(sockets, 1)
    ]
    return [transport for transport, _ in made]
