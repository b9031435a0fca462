"""A server of pages and their web sockets, for those who bring the token of its printed address: the panel of a street,
the editor of a plan.

A page loads nothing from elsewhere, can't be shown in a frame, and only its own scripts may open its web socket
(`doors`)."""

import abc
import asyncio
import contextlib
import functools
import pathlib
import socket
from collections.abc import Awaitable, Callable
from dataclasses import dataclass

from aiohttp import web

from .doors import Connection, Crowd, Door, room, said_once

DRAWING = [pathlib.Path(it) for it in ("/usr/share/nodejs/d3/dist/d3.min.js", "/usr/share/javascript/d3/d3.min.js")]
"""Where Debian's packages node-d3 and libjs-d3 have the library that draws."""
LIBRARY = "d3.min.js"
MOST_ASKED, BACKLOG = 4096, 16
"""The octets of the longest text of a page; how many connections may wait."""
POLICY = (
    "default-src 'none'; script-src 'self'; style-src 'self'; connect-src 'self'; img-src 'self' data:; "
    "base-uri 'none'; form-action 'none'; frame-ancestors 'none'"
)
HEADERS = {
    "Content-Security-Policy": POLICY,
    "X-Content-Type-Options": "nosniff",
    "X-Frame-Options": "DENY",
    "Referrer-Policy": "no-referrer",
    "Cross-Origin-Resource-Policy": "same-origin",
    "Cache-Control": "no-store",
}
MOST_WAITING = 40
"""How many texts may wait for a page before it is dropped."""

Handler = Callable[[web.Request], Awaitable[web.StreamResponse]]


@dataclass(frozen=True)
class Site:
    """What is served: the command that serves it and what it calls its pages, the folder of the files, their names (the
    first is the page itself), what is answered without the token, how many pages may be open, and the seconds in which
    nothing is done before a request is answered and before a page is opened."""

    command: str
    called: str
    folder: pathlib.Path
    files: tuple[str, ...]
    no_token: str
    most: int
    pause: float = 0.0
    pause_of_a_page: float = 0.0


class Page:
    """A page that is open: its socket, and the texts that wait for it."""

    def __init__(self, socket: web.WebSocketResponse) -> None:
        self.socket = socket
        self.waiting: asyncio.Queue[str] = asyncio.Queue(MOST_WAITING)
        self.dropping: asyncio.Task[bool] | None = None

    def tell(self, text: str) -> None:
        """Queues a text for the page; a page that doesn't read is dropped."""
        try:
            self.waiting.put_nowait(text)
        except asyncio.QueueFull:
            self.dropping = self.dropping or asyncio.create_task(self.socket.close())

    async def write(self) -> None:
        """Sends what waits, until the page goes away."""
        with contextlib.suppress(ConnectionError, RuntimeError):
            while True:
                await self.socket.send_str(await self.waiting.get())


class PageServer(abc.ABC):
    """Serves the pages of a site."""

    def __init__(self, site: Site, names: tuple[str, ...]) -> None:
        self.site = site
        self.door = Door(names)
        self.crowd = Crowd()
        self.most = room(site.most)
        self.turn = asyncio.Lock()
        self.given = [f"/{name}" for name in (*site.files[1:], LIBRARY)]
        """What is given without a token: it is the same everywhere, and says nothing of what is shown."""

    # what a site does with its pages

    @abc.abstractmethod
    def count(self) -> int:
        """Returns how many pages are open."""

    @abc.abstractmethod
    async def hold(self, socket: web.WebSocketResponse) -> None:
        """Feeds the page at a socket, and does what it asks for, until it goes away."""

    def routes(self) -> list[web.RouteDef]:
        """Returns what is served in addition to the page, its files and its socket."""
        return []

    # how pages are served

    async def feed(self, request: web.Request) -> web.StreamResponse:
        """Holds the socket of a page."""
        host, origin = request.headers.get("Host"), request.headers.get("Origin")
        if not self.door.is_its_own(origin, host) or self.count() >= self.most:
            raise web.HTTPForbidden
        made = web.WebSocketResponse(max_msg_size=MOST_ASKED, heartbeat=20, compress=False)
        await made.prepare(request)
        self.crowd.left(request.protocol)
        await self.hold(made)
        return made

    async def file(self, request: web.Request) -> web.StreamResponse:
        """Gives a file of the pages."""
        name = request.match_info.get("name") or self.site.files[0]
        if name == LIBRARY:
            drawing = next((it for it in DRAWING if it.is_file()), None)
            if drawing is None:
                raise web.HTTPNotFound
            return web.FileResponse(drawing)
        if name not in self.site.files:
            raise web.HTTPNotFound
        return web.FileResponse(self.site.folder / name)

    @web.middleware
    async def only_here(self, request: web.Request, handler: Handler) -> web.StreamResponse:
        """Refuses requests that name another host, and those for a page or its socket that lack the token."""
        if not self.door.is_here(request.headers.get("Host")):
            raise web.HTTPForbidden
        if request.path not in self.given and not self.door.has_token(request.query.get("token", "")):
            raise web.HTTPForbidden(text=self.site.no_token)
        async with self.turn:
            await asyncio.sleep(self.site.pause_of_a_page if request.path == "/feed" else self.site.pause)
        return await handler(request)

    async def with_headers(self, request: web.Request, response: web.StreamResponse) -> None:
        """Gives each answer the headers of all."""
        response.headers.update(HEADERS)

    async def open(self, port: socket.socket) -> None:
        """Serves at an open port."""
        loop = asyncio.get_running_loop()
        app = web.Application(middlewares=[self.only_here], client_max_size=MOST_ASKED)
        app.on_response_prepare.append(self.with_headers)
        pages = [web.get("/feed", self.feed), web.get("/", self.file), *self.routes(), web.get("/{name}", self.file)]
        app.add_routes(pages)
        self.runner = web.AppRunner(app)
        await self.runner.setup()
        manager = self.runner.server
        assert manager is not None
        self.manager = manager
        made = functools.partial(Connection, self.crowd, manager, loop=loop, access_log=None)
        loop.set_exception_handler(said_once(self.site.command, self.site.called))
        self.server = await loop.create_server(made, sock=port, backlog=BACKLOG)

    def address(self, place: object) -> str:
        """Returns the address of the page at a place, with the token that it must bring."""
        return f"http://{place}/?token={self.door.token}"

    async def close(self) -> None:
        """Ends all connections."""
        self.server.close()
        await self.manager.shutdown(1)
        await self.runner.cleanup()
