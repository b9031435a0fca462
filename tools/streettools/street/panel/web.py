"""The panel's server: its pages and their web sockets, for those who bring the token."""

import pathlib

from aiohttp import web

from ...shared.pages import PageServer, Site
from .panel import Panel

SITE = Site(
    command="street",
    called="the panel",
    folder=pathlib.Path(__file__).resolve().parent / "pages",
    files=("index.html", "panel.css", "panel.js", "diagram.js", "intersection.js"),
    no_token="Open the address that the street has printed: it has a token that this one lacks.\n",
    most=250,
    pause=0.005,
    pause_of_a_page=0.02,
)
"""The pauses let the cabinets' messages come first, also if many pages are opened."""


class Server(PageServer):
    """Serves a panel."""

    def __init__(self, panel: Panel, names: tuple[str, ...]) -> None:
        super().__init__(SITE, names)
        self.panel = panel

    def count(self) -> int:
        """Returns how many pages are open."""
        return len(self.panel.pages)

    async def hold(self, socket: web.WebSocketResponse) -> None:
        """Feeds the page at a socket until it goes away."""
        await self.panel.held(socket)
