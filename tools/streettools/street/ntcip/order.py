"""The order of a manager's messages: each is carried out and answered behind those before it.

Messages that are passed on to the cabinet need not wait for each other, since a session keeps their order.
"""

import asyncio
from collections.abc import Awaitable, Callable
from dataclasses import dataclass
from typing import TypeVar

from ..street import Manager

Result = TypeVar("Result")


@dataclass
class Queue:
    """The messages of a manager that are under way: how many, the last of those carried out here, and of all."""

    count: int = 0
    last_here: "asyncio.Future[None] | None" = None
    last: "asyncio.Future[None] | None" = None


class InOrder:
    """The messages that are under way to a cabinet, by manager."""

    def __init__(self) -> None:
        self.of: dict[Manager, Queue] = {}

    async def done(self, manager: Manager, is_here: bool, work: Callable[[], Awaitable[Result]]) -> Result:
        """Does the work of a message in its turn. One that is carried out here waits for all before it, another one
        for those that are carried out here."""
        queue = self.of.get(manager) or self.of.setdefault(manager, Queue())
        before, own = queue.last if is_here else queue.last_here, asyncio.get_running_loop().create_future()
        queue.last, queue.last_here = own, own if is_here else queue.last_here
        queue.count += 1
        try:
            if before is not None and not before.done():
                await asyncio.shield(before)
            return await work()
        finally:
            own.set_result(None)
            queue.count -= 1
            if not queue.count:
                self.of.pop(manager, None)
