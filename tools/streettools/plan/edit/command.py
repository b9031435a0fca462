"""The part `./arterial plan edit`: its options, what it opens, and how it ends."""

import argparse
import asyncio
import contextlib
import signal
from typing import TYPE_CHECKING

from ...shared.commandline import add_program, number
from ...shared.fault import Fault
from ...shared.given import Unreadable
from ...shared.program import answering
from ...shared.saying import say
from ...shared.status import Status

if TYPE_CHECKING:
    from .editor import Editor

EPILOG = """examples:
  ./arterial plan edit street.toml                                       # prints the address of its page
  ./arterial plan edit street.toml --volumes street.volumes.toml         # with delay, stops and queues

docs/EDITOR.md explains the page. Ctrl-C ends the editor; what isn't saved stays in street.toml.draft.
"""


def add_options(part: argparse.ArgumentParser) -> None:
    """Adds the options of the editor."""
    part.add_argument("file", metavar="SHEET", help="a timing sheet (.toml)")
    part.add_argument("--volumes", metavar="FILE", help="volumes (docs/QUEUES.md), for delay, stops and queues")
    part.add_argument(
        "--seconds", type=number(60, 14_400), default=900, metavar="S",
        help="the seconds of traffic that are measured (default: 900)",
    )  # fmt: skip
    part.add_argument(
        "--port", type=number(0, 65_535), default=0, metavar="PORT", help="the port of the page (default: a free one)"
    )
    add_program(part)


def made(words: argparse.Namespace) -> "Editor":
    """Returns the editor of a sheet; raises Fault if a package is missing, or if the sheet can't be drawn."""
    if not words.file.endswith(".toml"):
        raise Fault(f"{words.file}: the editor takes a timing sheet (.toml); `./arterial plan sheet` writes one")
    try:
        from .editor import Editor
        from .keeping import Kept
        from .measuring import Traffic
        from .showing import Shower
        from ..volumes_text import read
    except ModuleNotFoundError as fault:
        needs = f"the editor needs Python's package {fault.name}: apt-get install -y python3-aiohttp python3-tomlkit "
        raise Fault(needs + "python3-numpy node-d3", Status.FILE) from None
    program = str(answering(words.program, lambda line: say("plan", line)))
    traffic = Traffic(read(words.volumes), words.seconds) if words.volumes else None
    kept = Kept(words.file)
    try:
        return Editor(kept, Shower(program, traffic))
    except Unreadable as fault:
        lines = "\n".join(f"{words.file}: {it}" for it in fault.faults)
        raise Fault(f"{lines}\n{words.file} can't be drawn yet: `./arterial plan check` says more") from None


async def served(editor: "Editor", port: int) -> None:
    """Serves the page of an editor until Ctrl-C."""
    from ...street import ports  # takes a while
    from .web import Server

    over = asyncio.Event()
    loop = asyncio.get_running_loop()
    for name in (signal.SIGINT, signal.SIGTERM):
        loop.add_signal_handler(name, over.set)
    server = Server(editor, (ports.LOOPBACK,))
    with ports.page_port(ports.Place(ports.LOOPBACK, port)) as opened:
        await server.open(opened)
        editor.begin()
        try:
            say("plan", f"editor at {server.address(ports.place_of(opened))}")
            await over.wait()
        finally:
            await editor.end()
            await server.close()


def do_edit(words: argparse.Namespace) -> int:
    """Opens the editor of a sheet, until Ctrl-C."""
    editor = made(words)
    with contextlib.suppress(KeyboardInterrupt):
        asyncio.run(served(editor, words.port))
    if not editor.history.is_saved:
        say("plan", f"what isn't saved is in {editor.kept.draft_path}; the next start of the editor offers it")
    return Status.DONE
