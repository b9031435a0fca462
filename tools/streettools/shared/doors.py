"""Access control of pages that a tool serves: connections, and what they must bring."""

import asyncio
import errno
import functools
import hmac
import re
import resource
import secrets
from collections.abc import Callable
from typing import Any

from aiohttp import web

from . import saying

LOOPBACK_NAMES = ("localhost", "127.0.0.1", "[::1]")
FIRST_SECONDS = 10.0
"""How long a connection may take until it is a page's web socket. A browser opens another one when it needs it."""
MOST_ASKING, SPARE = 64, 64
"""How many connections may be open that don't belong to a page; how many files are left to the rest of the tool."""
NO_FILES = (errno.EMFILE, errno.ENFILE)


class Door:
    """What a page must bring: a Host that names this machine, an Origin of its own, and the token of the address."""

    def __init__(self, names: tuple[str, ...]) -> None:
        self.names = (*LOOPBACK_NAMES, *(it.lower() for it in names))
        self.token = secrets.token_urlsafe(24)

    def is_here(self, header: str | None) -> bool:
        """Tells whether a Host header names this machine, by loopback or as it is called from elsewhere: a page of
        another site can't then speak to the tool in the browser's name."""
        return re.sub(r":\d{1,5}$", "", (header or "").lower()) in self.names

    def is_its_own(self, origin: str | None, host: str | None) -> bool:
        """Tells whether an Origin header is that of the tool's own pages."""
        return host is not None and origin in (f"http://{host}", f"https://{host}")

    def has_token(self, token: str) -> bool:
        """Tells whether a token is the one of the address that the tool prints."""
        return hmac.compare_digest(token.encode(), self.token.encode())


def room(pages: int) -> int:
    """Returns how many pages may be open, as far as this process may open files."""
    most, _ = resource.getrlimit(resource.RLIMIT_NOFILE)
    return max(1, min(pages, most - MOST_ASKING - SPARE))


class Crowd:
    """The connections that aren't a page's web socket. If there are too many, the oldest is dropped."""

    def __init__(self) -> None:
        self.asking: dict[asyncio.BaseProtocol, asyncio.TimerHandle] = {}

    def came(self, it: "Connection") -> None:
        """A connection is made."""
        self.asking[it] = asyncio.get_running_loop().call_later(FIRST_SECONDS, it.drop)
        if len(self.asking) > MOST_ASKING:
            first = next(iter(self.asking))
            assert isinstance(first, Connection)
            first.drop()

    def left(self, it: asyncio.BaseProtocol) -> None:
        """A connection is over, or is a page's from now on."""
        if timer := self.asking.pop(it, None):
            timer.cancel()


class Connection(web.RequestHandler):
    """A connection of a browser, which is dropped if it doesn't become a page's in time."""

    def __init__(self, crowd: Crowd, manager: web.Server, **more: Any) -> None:
        super().__init__(manager, **more)
        self.crowd = crowd

    def connection_made(self, transport: asyncio.BaseTransport) -> None:
        super().connection_made(transport)
        self.crowd.came(self)

    def connection_lost(self, fault: BaseException | None) -> None:
        self.crowd.left(self)
        super().connection_lost(fault)

    def drop(self) -> None:
        """Ends the connection at once."""
        self.crowd.left(self)
        if self.transport is not None:
            self.transport.abort()


def said_once(command: str, what: str) -> Callable[[asyncio.AbstractEventLoop, dict[str, Any]], None]:
    """Returns a handler of the unhandled faults of an event loop: that no more files can be opened, so that `what`
    takes no connection, is printed once in the name of a command."""

    def handle(loop: asyncio.AbstractEventLoop, context: dict[str, Any]) -> None:
        if getattr(context.get("exception"), "errno", None) not in NO_FILES:
            loop.default_exception_handler(context)
        else:
            say_no_files(command, what)

    return handle


@functools.cache
def say_no_files(command: str, what: str) -> None:
    """Prints that no more files can be opened."""
    saying.say(command, f"too many files are open: {what} takes no connection until some are closed")
