"""What pages are shown of a version: facts, runs of the program, checks and measures. Each is computed once, in threads
and processes of their own, so that pages are answered meanwhile."""

import asyncio
import json
import os
import sys
from collections import OrderedDict
from collections.abc import Callable, Hashable
from typing import Any

from ...shared.fault import Fault
from ...shared.program import HERE, end_group
from .. import check, names, sources
from . import facts, measuring, running
from .measuring import Traffic
from .plans import Plan
from .running import Asked
from .versions import Version

MOST_KEPT = 200
"""How many results are kept."""


class Shower:
    """Computes what pages are shown. `program` is the program's path; with `traffic` there are measures of queues."""

    def __init__(self, program: str, traffic: Traffic | None) -> None:
        self.program, self.traffic = program, traffic
        self.known: OrderedDict[Hashable, asyncio.Future[Any]] = OrderedDict()
        self.results: OrderedDict[Hashable, dict[str, Any]] = OrderedDict()
        self.turn = asyncio.Lock()

    async def once(self, key: Hashable, work: Callable[[], Any]) -> Any:
        """Returns the result of some work, which is done in a thread, and once for a key."""
        if key not in self.known:
            self.known[key] = asyncio.ensure_future(asyncio.to_thread(work))
            while len(self.known) > MOST_KEPT:
                self.known.popitem(last=False)
        self.known.move_to_end(key)
        try:
            return await asyncio.shield(self.known[key])
        except Fault:
            self.known.pop(key, None)
            raise

    async def facts(self, plan: Plan, asked: Asked) -> dict[str, Any]:
        """Returns what a page draws of a plan."""
        return await asyncio.to_thread(facts.facts, plan, asked.intersection, asked.pattern or first(plan, asked))

    async def run(self, plan: Plan, asked: Asked) -> dict[str, Any]:
        """Returns a run of the program, and the bands of the plan."""
        key = (repr(plan.cabinets()), repr([it.travel for it in plan.names.intersections]), asked)
        shown, bands = await asyncio.gather(
            self.once(("run", key), lambda: tried(running.run, self.program, plan, asked)),
            self.once(("bands", key), lambda: tried(running.bands, self.program, plan, asked)),
        )
        return {"run": shown, "bands": bands}

    async def checks(self, version: Version) -> list[dict[str, Any]]:
        """Returns what the check finds in a version."""
        return list(await self.once(("checks", version.number), lambda: findings(self.program, version)))

    async def measures(self, plan: Plan, asked: Asked) -> dict[str, Any] | None:
        """Returns the measures of a plan; None without volumes."""
        if self.traffic is None:
            return None
        job = measuring.job_of(self.traffic, plan, asked)
        key = ("measures", repr(job.scenario), repr([it.travel for it in plan.names.intersections]))
        if key not in self.results:
            async with self.turn:
                self.results[key] = await self.measured(measuring.octets(self.program, job))
                while len(self.results) > MOST_KEPT:
                    self.results.popitem(last=False)
        return self.results[key]

    async def measured(self, given: bytes) -> dict[str, Any]:
        """Returns the measures of a job, which a process of its own finds out; it is ended with this task."""
        pipe, folder = asyncio.subprocess.PIPE, os.pathsep.join(filter(None, (HERE, os.environ.get("PYTHONPATH"))))
        process = await asyncio.create_subprocess_exec(
            sys.executable, "-B", "-m", measuring.__name__, stdin=pipe, stdout=pipe, stderr=asyncio.subprocess.DEVNULL,
            env={**os.environ, "PYTHONPATH": folder}, start_new_session=True,
        )  # fmt: skip
        try:
            said, _ = await process.communicate(given)
        finally:
            if process.returncode is None:
                end_group(process.pid)
                await process.wait()
        try:
            found: dict[str, Any] = json.loads(said)
        except ValueError:
            return {"refused": f"the process that measures ended with status {process.returncode}"}
        return found


def first(plan: Plan, asked: Asked) -> int:
    """Returns the pattern that is drawn where a page looks at none: the first that the intersection defines."""
    return next(iter(plan.of(asked.intersection).patterns()), 1)


def tried(work: Callable[[str, Plan, Asked], dict[str, Any]], program: str, plan: Plan, asked: Asked) -> dict[str, Any]:
    """Returns the result of a run, or why there is none."""
    try:
        return work(program, plan, asked)
    except (Fault, OSError) as fault:
        return {"refused": str(fault)}


def findings(program: str, version: Version) -> list[dict[str, Any]]:
    """Returns what the check finds in a version, with the number of the intersection that it speaks of, else 0."""
    plan = version.plan
    called = {plan.names.called(number): number for number in plan.numbers}
    source = sources.source_of("sheet.toml", version.text.encode(), names.Names)
    return [it.as_json() | {"number": called.get(it.where, 0)} for it in check.findings(source, program)]
