"""The replay of a record: its requests are asked again, in time with the clock or at once."""

import asyncio
from collections.abc import Coroutine
from typing import Any

from .pace import Pace
from .street import Street

AHEAD = 256
"""How many requests are given before their answers are waited for."""


class Replay:
    """Asks the requests of a record. Without a pace they are asked at once."""

    def __init__(self, street: Street, requests: list[bytes], pace: Pace | None) -> None:
        self.street = street
        self.requests = requests
        self.pace = pace
        self.under_way: list[asyncio.Task[Any]] = []

    async def play(self) -> None:
        """Asks all, or those until the street is to end."""
        for request in self.requests:
            if self.street.ended.is_set() or self.street.session.is_over:
                break
            if request.startswith(b"tick "):
                await self.ticks(int(request[5:]))
            else:
                await self.give(self.street.session.ask(request))
        await self.caught_up()

    async def give(self, asking: Coroutine[Any, Any, Any]) -> None:
        """Asks without waiting, unless many are under way."""
        self.under_way.append(asyncio.create_task(asking))
        if len(self.under_way) >= AHEAD:
            await self.caught_up()

    async def caught_up(self) -> None:
        """Waits for all answers that are under way."""
        await asyncio.gather(*self.under_way, return_exceptions=True)
        self.under_way = []

    async def ticks(self, count: int) -> None:
        """Takes ticks as they become pending."""
        if self.pace is None:
            await self.give(self.street.session.take(count))
            return
        left = 0
        while count and not self.street.ended.is_set():
            left += self.pace.due()
            now = min(count, left)
            if now:
                await self.give(self.street.session.take(now))
                count, left = count - now, left - now
            else:
                await self.street.pause(self.pace.wait())
        if left:
            self.pace.step(left)
