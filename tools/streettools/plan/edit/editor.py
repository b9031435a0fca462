"""The editor: its pages, the orders that they give, and what each is shown."""

import asyncio
import contextlib
import functools
import json
import os
import pathlib
from collections.abc import Awaitable, Callable
from dataclasses import replace
from typing import Any

from aiohttp import WSMsgType, web

from ...shared import pages
from ...shared.fault import Fault
from ...shared.given import Unreadable, Wrong
from ..taking import start_of
from . import changes, facts, orders, versions
from .keeping import Kept
from .orders import Drafted, Edit, Load, Save, Step, View
from .plans import Plan
from .running import Asked
from .showing import Shower, first
from .versions import Behind, Version

WATCH, REST = 1.0, 0.4
"""How often, in seconds, the file is looked at; how long a version must be unchanged before it is measured."""
MOST_LISTED = 100
"""How many of the last versions pages list."""
BEHIND = "another page has changed the plan: look at it, and make your change again"
UNANSWERED = "answer first whether the draft is taken"


class Latest:
    """Does one thing at a time; of those that wait only the newest is done."""

    def __init__(self) -> None:
        self.waiting: Callable[[], Awaitable[None]] | None = None
        self.task: asyncio.Task[None] | None = None

    def ask(self, work: Callable[[], Awaitable[None]]) -> None:
        """Does some work once what is being done is over."""
        self.waiting = work
        if self.task is None or self.task.done():
            self.task = asyncio.create_task(self.go())

    async def go(self) -> None:
        """Does what waits."""
        while self.waiting is not None:
            work, self.waiting = self.waiting, None
            with contextlib.suppress(Fault, Wrong):
                await work()

    def end(self) -> None:
        """Drops all."""
        self.waiting = None
        if self.task is not None:
            self.task.cancel()


class Page(pages.Page):
    """A page that is open, what it looks at, and the work for it: what is dragged and shown, what takes longer."""

    def __init__(self, socket: web.WebSocketResponse, asked: Asked) -> None:
        super().__init__(socket)
        self.asked = asked
        self.other = 0
        self.quick, self.slow = Latest(), Latest()

    def say(self, **told: Any) -> None:
        """Sends an object."""
        self.tell(json.dumps(told, separators=(",", ":")))


class Editor:
    """Edits a sheet for all of its pages."""

    def __init__(self, kept: Kept, shower: Shower) -> None:
        self.kept, self.shower = kept, shower
        self.history = versions.begun(kept.text())
        self.draft = kept.draft()
        if self.draft is not None and self.draft.text == kept.text():
            self.draft = None
        self.pages: set[Page] = set()
        self.turn = asyncio.Lock()
        self.is_changed = False
        self.tasks: list[asyncio.Task[None]] = []

    # pages

    def begin(self) -> None:
        """Begins to watch the file."""
        self.tasks.append(asyncio.create_task(self.watch()))

    async def end(self) -> None:
        """Ends all tasks, and lets pages know."""
        for task in self.tasks:
            task.cancel()
        for page in list(self.pages):
            page.say(ending="The editor has ended.")
        await asyncio.sleep(0.1)
        for page in list(self.pages):
            await page.socket.close()
            page.slow.end()

    async def held(self, socket: web.WebSocketResponse) -> None:
        """Feeds the page at a socket, and does what it asks for, until it goes away."""
        page = Page(socket, self.usual())
        self.pages.add(page)
        self.tell_state()
        writer = asyncio.create_task(page.write())
        try:
            async for came in socket:
                if came.type is WSMsgType.TEXT:
                    await self.heard(page, came.data)
                elif came.type is WSMsgType.BINARY:
                    page.say(refused="an order is text")
        finally:
            self.pages.discard(page)
            writer.cancel()
            page.quick.end()
            page.slow.end()
            self.tell_state()

    def usual(self) -> Asked:
        """Returns what a page looks at as it opens: the first intersection and its first pattern, at the time at which
        the sheet starts."""
        plan = self.history.now.plan
        start = start_of(plan.street) or 0.0
        return Asked(1, next(iter(plan.of(1).patterns()), 0), 10 * int(start), 10, True, "all")

    def state(self) -> dict[str, Any]:
        """Returns what all pages have in common."""
        it, plan = self.history, self.history.now.plan
        asked = self.usual()
        return {
            "version": it.now.number, "file": str(self.kept.path), "title": plan.names.title,
            "saved": it.is_saved, "changed": self.is_changed, "pages": len(self.pages),
            "undo": it.now.label if it.at else None,
            "redo": it.versions[it.at + 1].label if it.at + 1 < len(it.versions) else None,
            "versions": [[one.number, one.label] for one in it.versions[-MOST_LISTED:]],
            "draft": None if self.draft is None else {"time": self.draft.time, "fits": self.draft.fits},
            "names": [plan.names.called(number) for number in plan.numbers],
            "patterns": plan.patterns(), "volumes": self.shower.traffic is not None,
            "schedule": plan.street.scenario.get("master", {}).get("schedule", []),
            "usual": {"pattern": asked.pattern, "time": asked.time // 10},
        }  # fmt: skip

    def tell_state(self) -> None:
        """Tells all pages what they have in common."""
        state = self.state()
        for page in list(self.pages):
            page.say(state=state)

    # the file and its draft

    async def watch(self) -> None:
        """Looks again and again whether another program has changed the file."""
        known = None
        while True:
            await asyncio.sleep(WATCH)
            if (now := signature(self.kept.path)) != known:
                known = now
                self.look()

    def look(self) -> None:
        """Looks whether another program has changed the file."""
        is_changed = self.kept.is_changed()
        if is_changed != self.is_changed:
            self.is_changed = is_changed
            self.tell_state()

    def keep_draft(self) -> None:
        """Keeps what isn't saved yet."""
        try:
            if self.history.is_saved:
                self.kept.forget()
            else:
                self.kept.keep(self.history.now.text)
        except OSError as fault:
            for page in self.pages:
                page.say(refused=f"what isn't saved can't be kept in a draft: {fault.strerror}")

    # orders

    async def heard(self, page: Page, text: str) -> None:
        """Does what a page asks for; what is refused is said in one line."""
        try:
            await self.obey(page, orders.order_of(text, len(self.history.now.plan.tables)))
        except Behind:
            page.say(refused=BEHIND, state=self.state())
            self.show(page)
        except (Wrong, Fault) as fault:
            page.say(refused=" ".join(str(fault).split()))
        except OSError as fault:
            page.say(refused=f"{fault.filename or self.kept.path}: {fault.strerror}")

    async def obey(self, page: Page, order: orders.Order) -> None:
        """Does what a page asks for."""
        if isinstance(order, View):
            page.asked, page.other = order.asked, order.other
            self.show(page)
        elif isinstance(order, Edit) and order.is_try:
            page.quick.ask(functools.partial(self.tried, page, order))
        elif self.draft is not None and not isinstance(order, Drafted):
            raise Wrong(UNANSWERED)
        else:
            async with self.turn:
                await self.changed(page, order)

    async def changed(self, page: Page, order: orders.Order) -> None:
        """Does what changes the sheet, or its file."""
        before = self.history.now
        if isinstance(order, Edit):
            self.history.ask(order.at)
            page.quick.ask(functools.partial(self.previewed, page, order, before.plan))
            version, notes = await asyncio.to_thread(self.history.changed, order.change)
            if version is not None:
                self.history.add(version)
            page.say(done=order.mark, notes=notes, label=self.history.now.label)
        elif isinstance(order, Step):
            self.history.ask(order.at)
            (self.history.undo if order.is_back else self.history.redo)()
        elif isinstance(order, Save):
            self.history.ask(order.at)
            self.save(page, order.is_over)
        elif isinstance(order, Load):
            self.load()
        elif isinstance(order, Drafted):
            self.answered(order.is_taken)
        if self.history.now is not before:
            self.keep_draft()
            for it in list(self.pages):
                self.show(it)
        self.tell_state()

    def save(self, page: Page, is_over: bool) -> None:
        """Saves the current version, unless another program has changed the file."""
        self.look()
        if self.is_changed and not is_over:
            page.say(ask="changed")
            return
        self.kept.save(self.history.now.text)
        self.history.saved, self.is_changed = self.history.now.text, False
        page.say(notes=[f"{self.kept.path} is saved"])
        for it in list(self.pages):
            self.show(it)

    def load(self) -> None:
        """Takes the file as another program has changed it; what was edited can be brought back by undo."""
        text = self.kept.load()
        try:
            self.history.take(text, "as changed by another program")
        except Unreadable as fault:
            raise Wrong(f"the file can't be edited as it is now: {fault}") from None
        self.history.saved, self.is_changed = text, False

    def answered(self, is_taken: bool) -> None:
        """Takes the offered draft, or drops it."""
        if self.draft is None:
            raise Wrong("no draft is offered")
        if is_taken:
            try:
                self.history.take(self.draft.text, "from the draft")
            except Unreadable as fault:
                raise Wrong(f"the draft can't be edited: {fault}") from None
        else:
            self.kept.forget()
        self.draft = None

    # what a page is shown

    async def tried(self, page: Page, order: Edit) -> None:
        """Shows a page a change that isn't made yet."""
        if order.at != self.history.now.number:
            page.say(tried=order.mark, refused=BEHIND)
            return
        try:
            await self.previewed(page, order, self.history.now.plan)
        except Wrong as wrong:
            page.say(tried=order.mark, refused=" ".join(str(wrong).split()))

    async def previewed(self, page: Page, order: Edit, plan: Plan) -> None:
        """Shows a page what a change makes of a plan: where it ends, then the run of the program."""
        made = await asyncio.to_thread(changes.made, plan, order.change)
        pattern = page.asked.pattern or first(made.plan, page.asked)
        rows = facts.street(made.plan, page.asked.intersection, pattern)
        page.say(tried=order.mark, street=rows, label=made.label, notes=made.notes)
        shown = await self.shower.run(made.plan, page.asked)
        page.say(mark=order.mark, **shown)

    def show(self, page: Page) -> None:
        """Shows a page the current version."""
        version = self.history.now
        page.asked = fitting(page.asked, version.plan)
        page.quick.ask(lambda: self.shown(page, version))
        page.slow.ask(lambda: self.looked(page, version))

    async def shown(self, page: Page, version: Version) -> None:
        """Shows a page what is quick: facts, then the run."""
        drawn = await self.shower.facts(version.plan, page.asked)
        page.say(version=version.number, facts=drawn)
        page.say(version=version.number, **await self.shower.run(version.plan, page.asked))

    def base(self, page: Page) -> Version:
        """Returns the version with which a page compares: the chosen one, else that of the file."""
        chosen = self.history.of(page.other) if page.other else None
        saved = next((it for it in self.history.versions if it.text == self.history.saved), None)
        return chosen or saved or self.history.versions[0]

    async def looked(self, page: Page, version: Version) -> None:
        """Shows a page what takes longer: the version to compare with, checks, and measures once it rests."""
        base = self.base(page)
        asked = fitting(page.asked, base.plan)
        label = "the file" if base.text == self.history.saved else base.label
        drawn = await self.shower.facts(base.plan, asked)
        page.say(base=base.number, label=label, facts=drawn, **await self.shower.run(base.plan, asked))
        page.say(version=version.number, checks=await self.shower.checks(version))
        if self.shower.traffic is None:
            return
        await asyncio.sleep(REST)
        if page.slow.waiting is None:
            found = [await self.shower.measures(it.plan, fitting(page.asked, it.plan)) for it in (base, version)]
            page.say(version=version.number, measures=found)


def fitting(asked: Asked, plan: Plan) -> Asked:
    """Returns what a page looks at, with an intersection and a pattern that the plan has."""
    number = asked.intersection if asked.intersection in plan.numbers else 1
    pattern = asked.pattern if asked.pattern in plan.patterns() else 0
    return replace(asked, intersection=number, pattern=pattern)


def signature(path: pathlib.Path) -> tuple[int, ...] | None:
    """Returns what differs once a file is written again; None if it is gone."""
    with contextlib.suppress(OSError):
        it = os.stat(path)
        return it.st_ino, it.st_size, it.st_mtime_ns
    return None
