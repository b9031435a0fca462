"""Commands of a user, a line each, from a named pipe: what a street's cabinets are to do (`acts`)."""

import asyncio
import os
import stat
from collections.abc import Callable
from typing import BinaryIO

from ..shared.fault import Fault
from ..shared.status import Status
from .acts import LONGEST, Acts, Wrong, act_of


def opened(path: str) -> BinaryIO:
    """Opens a named pipe for reading. It stays open when a writer leaves."""
    place = os.open(path, os.O_RDWR | os.O_NONBLOCK | os.O_CLOEXEC)
    if not stat.S_ISFIFO(os.fstat(place).st_mode):
        os.close(place)
        raise Fault(f"{path}: not a named pipe, such as `mkfifo` makes", Status.FILE)
    return os.fdopen(place, "rb", buffering=0)


async def obeyed(pipe: BinaryIO, acts: Acts, cabinets: int, say: Callable[[str], None]) -> None:
    """Does what each line of a pipe asks for, as long as the street lives. A line that isn't a command is reported."""
    reader = asyncio.StreamReader(LONGEST)
    await asyncio.get_running_loop().connect_read_pipe(lambda: asyncio.StreamReaderProtocol(reader), pipe)
    while True:
        try:
            line = await reader.readuntil(b"\n")
        except asyncio.LimitOverrunError as fault:
            await reader.readexactly(fault.consumed)
            say(f"command: a line of more than {LONGEST} bytes")
            continue
        except asyncio.IncompleteReadError:
            return
        if text := line.decode("ascii", "replace").strip():
            try:
                acts.do(act_of(text, cabinets))
            except Wrong as wrong:
                say(f"command: {wrong}")
