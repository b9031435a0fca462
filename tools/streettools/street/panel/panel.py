"""What a street's panel does: what it shows to pages, and what they may ask of the street."""

import asyncio
import contextlib
import json
import time
from typing import Any

from aiohttp import WSMsgType, web

from ...cabinet.messages import GET, message
from ...shared import oids, pages
from ...shared.fault import Fault
from ...shared.status import Status
from ..acts import ALARMS, Acts, Alarm, Reboot
from ..line import Line
from ..street import Hearer, Street
from . import in_force, orders
from .layout import facts
from .names import numbers_of, values_of
from .state import PanelState
from .streams import STAYS, Streams

EVERY, DETAILS_EVERY, GREENS_EVERY = 0.2, 0.5, 2.0
"""How often, in seconds, pages get news, details of the cabinet that they look at, and greens."""
DETAILS = {
    "command": oids.CONTROL,
    "status": oids.STATUS,
    "clock": oids.CLOCK,
    "counter": oids.COUNTER_OF_CYCLE,
    "target": oids.TARGET,
    "version": oids.VERSION,
    "vehicles1": (*oids.STATUS_GROUP, 8, 1),
    "vehicles2": (*oids.STATUS_GROUP, 8, 2),
    "people1": (*oids.STATUS_GROUP, 9, 1),
    "people2": (*oids.STATUS_GROUP, 9, 2),
}
"""What a page gets of the cabinet that it looks at, read as management software reads it."""


class Page(pages.Page):
    """A page that is open, and the cabinet that it looks at."""

    def __init__(self, socket: web.WebSocketResponse) -> None:
        super().__init__(socket)
        self.cabinet = 0
        self.known = (0, 0)
        self.is_new = True


class Panel(Hearer):
    """The panel of a street."""

    called = "the panel"
    stride = 4

    def __init__(self, state: PanelState) -> None:
        self.shown = state
        self.names: dict[str, Any] = {}
        self.street: Street
        self.pages: set[Page] = set()
        self.streams = Streams()
        self.line = Line([], 0)
        self.acts: Acts
        self.has_alarms = False
        """Whether managers can read alarms: only the front has them."""
        self.pulses: list[tuple[int, bytes]] = []
        self.tasks: list[asyncio.Task[None]] = []

    def begin(self, street: Street) -> None:
        """Begins to feed the pages of a street; a task that fails ends it."""
        self.street = street
        self.shown.is_replaying = lambda: street.is_replaying
        self.tasks = [asyncio.create_task(it()) for it in (self.news, self.details, self.greens, self.tables)]
        for task in self.tasks:
            task.add_done_callback(self.is_over)

    def is_over(self, task: asyncio.Task[None]) -> None:
        """Ends the street with the fault of a task that failed."""
        if not task.cancelled() and (fault := task.exception()):
            self.street.fail(Fault(f"{self.called} failed: {type(fault).__name__}: {fault}", Status.FILE))

    async def end(self, ending: str) -> None:
        """Ends the tasks, and lets pages know that the street has ended, and how."""
        for task in self.tasks:
            task.cancel()
        self.shown.ending = self.shown.ending or ending
        self.broadcast(self.state())
        await asyncio.sleep(EVERY)
        for page in list(self.pages):
            await page.socket.close()

    async def held(self, socket: web.WebSocketResponse) -> None:
        """Feeds the page at a socket, and does what it asks for, until it goes away."""
        page = Page(socket)
        page.tell(json.dumps(self.head() | self.state(), separators=(",", ":")))
        page.known = self.known()
        self.pages.add(page)
        writer = asyncio.create_task(page.write())
        try:
            async for came in socket:
                if came.type is WSMsgType.TEXT:
                    with contextlib.suppress(orders.Wrong):
                        await self.obey(page, orders.order_of(came.data, len(self.shown.cabinets)))
        finally:
            self.pages.discard(page)
            writer.cancel()

    # what pages receive

    def head(self) -> dict[str, Any]:
        """Returns what a page receives as it opens."""
        called = {"names": self.names, "start": self.start()}
        laid = {"facts": self.shown.facts, "ticks": self.shown.scenario["ticks"]}
        return {**laid, **called, "alarms": ALARMS if self.has_alarms else [], "all": True, **self.shown.news(0)}

    def start(self) -> int:
        """Returns the ticks since midnight at which a street with names starts; 0 for another, whose times are those
        since the start."""
        scenario = self.shown.scenario
        if not any(self.names.get("cabinets", ())):
            return 0
        return int(scenario.get("master", {}).get("clock") or scenario["cabinets"][0].get("clock", 0))

    def state(self) -> dict[str, Any]:
        """Returns the contents of every text: the speed, the switches, the streams, and how the street ended."""
        return {
            "speed": self.street.pace.speed,
            "step": self.street.after_message,
            "inputs": self.street.inputs.names(),
            "rates": self.streams.rates(),
            "line": {"rules": len(self.line.rules), "on": self.line.is_on, "hanging": self.hanging()},
            "alarmed": {number: sorted(names) for number, names in self.street.alarms.items() if names},
            "ending": self.shown.ending,
        }

    def hanging(self) -> list[int]:
        """Returns the cabinets that get no message now."""
        cabinets = range(1, 1 + len(self.shown.cabinets))
        return [number for number in cabinets if self.line.silent_word(number)]

    def broadcast(self, told: dict[str, Any]) -> None:
        """Tells all pages."""
        text = json.dumps(told, separators=(",", ":"))
        for page in list(self.pages):
            page.tell(text)

    async def news(self) -> None:
        """Sends pages what has changed since their last message, repeatedly."""
        while True:
            await asyncio.sleep(EVERY)
            if self.pages:
                await self.shown.put_in_words()
            texts: dict[tuple[int, int], str] = {}
            for page in list(self.pages):
                if page.known not in texts:
                    texts[page.known] = json.dumps(self.news_behind(page.known) | self.state(), separators=(",", ":"))
                page.tell(texts[page.known])
                page.known = self.known()

    def known(self) -> tuple[int, int]:
        """Returns what a page knows after this message: the session, and its last change."""
        return self.shown.sessions, self.shown.change

    def news_behind(self, known: tuple[int, int]) -> dict[str, Any]:
        """Returns what a page receives that knows a session up to a change; if the session is a different one,
        everything."""
        return self.shown.news(known[1]) if known[0] == self.shown.sessions else self.head()

    async def details(self) -> None:
        """Tells pages of the cabinets that they look at."""
        while True:
            await asyncio.sleep(DETAILS_EVERY)
            for cabinet in sorted({page.cabinet for page in self.pages} - {0}):
                text = json.dumps({"details": await self.details_of(cabinet)})
                for page in list(self.pages):
                    if page.cabinet == cabinet:
                        page.tell(text)

    async def details_of(self, cabinet: int) -> dict[str, Any]:
        """Returns what management software reads of a cabinet."""
        reply = await self.got(cabinet, list(DETAILS.values()))
        return {"cabinet": cabinet} | (dict(zip(DETAILS, numbers_of(reply))) if reply else {})

    async def got(self, cabinet: int, names: list[in_force.Name]) -> bytes | None:
        """Returns a cabinet's reply to a Get of the panel's own; None if it is silent."""
        octets = message(GET, 1, [(name, None) for name in names], self.street.community())
        return await self.street.message(cabinet, octets)

    async def tables(self) -> None:
        """Draws the layout of cabinets again whose tables in force have changed, and sends it to pages."""
        while True:
            await asyncio.sleep(EVERY)
            for cabinet in self.shown.outdated() if self.pages else ():
                with contextlib.suppress(in_force.Changed):
                    await self.lay_out(cabinet)

    async def lay_out(self, cabinet: int) -> None:
        """Draws the layout of a cabinet by the tables in force, and sends it to pages."""

        async def asked(names: list[in_force.Name]) -> in_force.Values | None:
            reply = await self.got(cabinet, names)
            return values_of(reply) if reply else None

        version, session = self.shown.cabinets[cabinet - 1].version, self.shown.sessions
        tables = await in_force.read(asked, version)
        if session == self.shown.sessions:
            self.shown.facts[cabinet - 1] = facts(cabinet, tables, version)
            self.broadcast({"laid": self.shown.facts[cabinet - 1]})

    async def greens(self) -> None:
        """Sends pages the greens of the coordination diagram, again and again; a page that is new gets them soon."""
        due = 0.0
        while True:
            await asyncio.sleep(EVERY)
            now, wanting = time.monotonic(), [page for page in self.pages if page.cabinet == 0]
            if wanting and (now >= due or any(page.is_new for page in wanting)):
                due = now + GREENS_EVERY
                text = f'{{"greens":{await self.shown.greens()}}}'
                for page in wanting:
                    page.is_new = False
                    page.tell(text)

    # what pages ask

    async def obey(self, page: Page, order: orders.Order) -> None:
        """Does what a page asks for."""
        if isinstance(order, orders.Input):
            await self.street.input(order.request)
        elif isinstance(order, orders.Pulse):
            place = b"veh %d %d " % (order.cabinet, order.phase)
            await self.street.input(place + b"on")
            self.pulses.append((self.street.session.taken + STAYS, place + b"off"))
        elif isinstance(order, orders.Rate):
            self.streams.set(order.cabinet, order.phase, order.rate, self.street.session.taken)
        elif isinstance(order, orders.Speed):
            self.street.pace.set(order.speed)
            self.street.wake()
        elif isinstance(order, orders.Step):
            self.street.pace.step(order.ticks)
            self.street.wake()
        elif isinstance(order, orders.BadLine):
            self.line.is_on = order.is_on
        elif isinstance(order, Reboot | Alarm):
            self.acts.do(order)
        elif isinstance(order, orders.Hang):
            self.acts.note(order.cabinet, f"hang {'on' if order.is_on else 'off'}")
            if not order.is_on:
                self.line.silent.pop(order.cabinet, None)
            (self.line.hanging.add if order.is_on else self.line.hanging.discard)(order.cabinet)
        else:
            page.cabinet = order.cabinet

    def due_inputs(self, ticks: int) -> list[bytes]:
        due = [it for it in self.pulses if it[0] <= ticks]
        self.pulses = [it for it in self.pulses if it[0] > ticks]
        return self.streams.due(ticks) + [request for _, request in due]

    def began(self, scenario: dict[str, Any]) -> None:
        self.pulses = []
        self.streams.restart()
