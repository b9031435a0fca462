"""The editor's server: its page and the page's web socket, and the files that it exports."""

import asyncio
import pathlib
import re

from aiohttp import web

from ...shared.fault import Fault
from ...shared.given import Wrong
from ...shared.pages import PageServer, Site
from . import exporting
from .editor import Editor

SITE = Site(
    command="plan",
    called="the editor",
    folder=pathlib.Path(__file__).resolve().parent / "pages",
    files=("index.html", "editor.css", "scale.js", "diagram.js", "rings.js", "lists.js", "editor.js"),
    no_token="Open the address that the editor has printed: it has a token that this one lacks.\n",
    most=50,
)


class Server(PageServer):
    """Serves an editor."""

    def __init__(self, editor: Editor, names: tuple[str, ...]) -> None:
        super().__init__(SITE, names)
        self.editor = editor

    def count(self) -> int:
        """Returns how many pages are open."""
        return len(self.editor.pages)

    async def hold(self, socket: web.WebSocketResponse) -> None:
        """Feeds the page at a socket until it goes away."""
        await self.editor.held(socket)

    def routes(self) -> list[web.RouteDef]:
        """Returns what is served in addition."""
        return [web.get("/export/{kind}", self.export)]

    async def export(self, request: web.Request) -> web.StreamResponse:
        """Gives the current version as a file."""
        kind, pattern = request.match_info["kind"], request.query.get("pattern", "1")
        history, path = self.editor.history, self.editor.kept.path
        try:
            if not re.fullmatch("[1-9][0-9]?", pattern) or int(pattern) > 48:
                raise Wrong("a pattern is 1 to 48")
            saved = next((it for it in history.versions if it.text == history.saved), history.versions[0])
            traffic = self.editor.shower.traffic
            text = await asyncio.to_thread(exporting.exported, kind, history.now, saved, int(pattern), traffic)
        except (Wrong, Fault) as fault:
            raise web.HTTPBadRequest(text=" ".join(str(fault).split()) + "\n") from None
        name = re.sub(r"[^A-Za-z0-9._-]", "-", path.stem) + exporting.KINDS[kind]
        return web.Response(text=text, headers={"Content-Disposition": f'attachment; filename="{name}"'})
