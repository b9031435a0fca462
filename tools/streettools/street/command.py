"""The command `./arterial street`: what it opens, in which order, and how it ends."""

import argparse
import asyncio
import contextlib
import ipaddress
import json
import pathlib
import signal
import socket
import sys
from dataclasses import dataclass
from typing import TYPE_CHECKING, Any

from ..plan.suffixes import is_sheet
from ..shared import saying
from ..shared.fault import Fault
from ..shared.given import content_of
from ..shared.program import NoProgram, answering, ran
from ..shared.status import Status
from . import ports, words
from .acts import Acts
from .commands import obeyed, opened as opened_pipe
from .line import Line, Passed, line_of
from .messages import Messages
from .ntcip.front import Fronts
from .pace import TICKS_A_SECOND, Pace
from .record import Recorder, last_of, last_part, read_requests
from .replay import Replay
from .street import Hearer, Street

if TYPE_CHECKING:
    from ..plan.names import Names

OPEN = "warning: anyone who reaches {} can read and change these cabinets: the protocol has no protection"
USUAL = {"version": 1, "rounds": 1, "ticks": 10, "cabinets": [{}]}
"""Where no scenario is named: the standard tables, rounds of a second."""


def say(told: object) -> None:
    """Tells something on standard error."""
    saying.say("street", told)


class Telling(Hearer):
    """Reports when the street begins a new session."""

    def __init__(self) -> None:
        self.sessions = 0

    def began(self, scenario: dict[str, Any]) -> None:
        self.sessions += 1
        if self.sessions > 1:
            say("the session ended; a new one begins with start-up, with these tables, patterns, clocks and inputs")

    def ended_round(self, ticks: int) -> None:
        seconds = ticks / TICKS_A_SECOND
        say(f"many messages came while time stood: it has advanced by {seconds:g} s to the end of the round")


def scenario_of(program: pathlib.Path, text: bytes) -> dict[str, Any]:
    """Returns the scenario that a text is, once the program has opened a session with it."""
    ran(program, "live", given=text).done()
    scenario: dict[str, Any] = json.loads(text)
    return scenario


def text_of(path: str) -> bytes:
    """Returns the scenario of a file in one line; a timing sheet is accepted as well."""
    if is_sheet(path):
        from ..plan import taking  # takes a while

        return json.dumps(taking.sheet(path).scenario).encode()
    return in_order(content_of(path).replace(b"\n", b" "))


def in_order(text: bytes) -> bytes:
    """Returns a scenario whose downloads and priority requests are in the order of their rounds, as a session asks.
    `run` takes them in any order, and `generate` writes them so; a line says that they were sorted."""
    try:
        told = json.loads(text)
        lists = {name: told.get(name, []) for name in ("loads", "priority")}
        moved = [name for name, items in lists.items() if sorted(items, key=round_of) != items]
    except (ValueError, RecursionError, AttributeError, TypeError, KeyError):
        return text  # the program says what is wrong with it
    for name in moved:
        told[name] = sorted(told[name], key=round_of)
        say(f"the items of {name} were sorted by round")
    return json.dumps(told, separators=(",", ":")).encode() if moved else text


def round_of(item: dict[str, Any]) -> int:
    """Returns the round of an item of a scenario."""
    number: int = item["round"]
    return number


def asked_for(given: argparse.Namespace, program: pathlib.Path) -> tuple[dict[str, Any], list[bytes]]:
    """Returns the scenario that the words ask for, and the requests that are to happen again in it."""
    if again := words.again(given):
        named = pathlib.Path(again)
        text, requests = read_requests(named if given.replay else last_of(named))
        return scenario_of(program, text), requests
    if given.scenario:
        return scenario_of(program, text_of(given.scenario)), []
    return USUAL, []


def names_of(scenario: str) -> "Names | None":
    """Returns the names of a sheet, or of the file with names next to a scenario, None if there are none."""
    from ..plan import streets  # takes a while

    return streets.text_of(scenario).names


def recorder_of(given: argparse.Namespace) -> Recorder:
    """Returns the record. One that is resumed into itself goes on with its last session; those before it stay."""
    record = pathlib.Path(given.record)
    is_same = given.resume is not None and given.resume in ("", given.record)
    return Recorder(record, last_part(record) if is_same else 1)


def street_of(given: argparse.Namespace, hearers: list[Hearer]) -> tuple[Street, list[bytes]]:
    """Returns the street that the words ask for, and the requests to replay in it."""
    program, is_step = answering(given.program, say), words.is_step(given)
    scenario, requests = asked_for(given, program)
    street = Street(str(program), scenario, Pace(0.0 if is_step else given.speed), hearers)
    if given.scenario and (names := names_of(given.scenario)):
        rows = range(1, 1 + len(street.scenario["cabinets"]))
        street.called = {number: names.intersection(number).name for number in rows}
    street.session_ticks = given.session
    if is_step:
        street.after_message = words.USUAL_STEP if given.ticks_per_message is None else given.ticks_per_message
    return street, requests


def tell_places(street: Street, places: list[ports.Place]) -> None:
    """Prints where the cabinets answer."""
    community, count = street.community().decode(), len(places)
    where = f"{places[0]}" if count == 1 else f"{places[0]} to {places[-1]}"
    say(f"{count} cabinet{'s'[: count - 1]} answer{'s'[: count == 1]} at {where}, community {community}")


async def held(street: Street, requests: list[bytes], by_clock: bool) -> None:
    """Runs the street: first the requests to replay."""
    if requests:
        street.is_replaying = True
        await Replay(street, requests, street.pace if by_clock else None).play()
        street.is_replaying = False
        street.pace.restart()
        if not by_clock:
            say(f"{street.session.taken} ticks have happened again")
    await street.live()


class Opened:
    """The panel, once it is asked for, and its server, once that is open."""

    def __init__(self, given: argparse.Namespace) -> None:
        """Imports what needs packages; raises Fault if one is missing."""
        try:
            from .panel.panel import Panel
            from .panel.state import PanelState
            from .panel.web import Server
        except ModuleNotFoundError as fault:
            needs = f"the panel needs Python's package {fault.name}: apt-get install -y python3-aiohttp node-d3"
            raise Fault(needs, Status.FILE) from None
        self.given, self.state = given, PanelState()
        self.panel = Panel(self.state)
        names = [given.bind or ports.LOOPBACK, *given.allow_host]
        self.server = Server(self.panel, tuple(map(ports.bracketed, names)))

    def hearers(self) -> list[Hearer]:
        """Returns the panel's hearers of the street."""
        return [self.state, self.panel]

    def hearing(self, asks: ports.Asked) -> ports.Asked:
        """Returns a function that asks the cabinets, and shows requests and answers in the panel."""

        async def asked(cabinet: int, octets: bytes, manager: ports.Manager) -> bytes | None:
            reply = await asks(cabinet, octets, manager)
            self.state.exchanged(cabinet, octets, reply)
            return reply

        return asked

    async def open(self, street: Street, stack: contextlib.AsyncExitStack) -> None:
        """Opens the server, and says where it is."""
        from .panel import called

        place = ports.Place(self.given.bind or ports.LOOPBACK, self.given.panel)
        port = stack.enter_context(ports.page_port(place))
        await self.server.open(port)
        stack.push_async_callback(self.server.close)
        names = names_of(self.given.scenario) if self.given.scenario else None
        self.panel.names = called.told(names, len(street.scenario["cabinets"]))
        self.panel.begin(street)
        stack.push_async_callback(self.panel.end, "The street has ended.")
        where = ports.Place(words.panel_name(self.given), ports.place_of(port).port)
        say(f"panel at {self.server.address(where)}")


@dataclass
class Asked:
    """What the words ask for: a street, the requests to replay in it, its ports, its panel."""

    given: argparse.Namespace
    street: Street
    requests: list[bytes]
    sockets: list[socket.socket]
    panel: Opened | None
    line: Line | None


def messages_of(asked: Asked, stack: contextlib.AsyncExitStack) -> Messages | None:
    """Returns the file of messages, None if none is asked for. It is closed at the end."""
    if not asked.given.messages:
        return None
    messages = Messages(pathlib.Path(asked.given.messages), lambda: asked.street.session.taken)
    messages.places = [(place.address, place.port) for place in map(ports.place_of, asked.sockets)]
    stack.callback(messages.close)
    return messages


def wire_of(asked: Asked, messages: Messages | None) -> ports.Wire | None:
    """Returns what is between the ports and managers, None if there is nothing."""
    if messages is None:
        return ports.Wire(asked.line) if asked.line else None

    add = messages.add

    def keep(it: Passed) -> None:
        try:
            add(it)
        except OSError as fault:
            asked.street.fail(fault)

    return ports.Wire(asked.line, keep)


def obey(asked: Asked, acts: Acts, stack: contextlib.AsyncExitStack) -> None:
    """Begins to obey the lines of the pipe of commands, if one is named."""
    if not asked.given.commands:
        return
    pipe = stack.enter_context(opened_pipe(asked.given.commands))
    task = asyncio.create_task(obeyed(pipe, acts, len(asked.street.scenario["cabinets"]), say))

    def is_over(done: asyncio.Task[None]) -> None:
        if not done.cancelled() and (fault := done.exception()):
            asked.street.fail(Fault(f"the pipe of commands failed: {fault}", Status.FILE))

    task.add_done_callback(is_over)
    stack.callback(task.cancel)


async def served(asked: Asked) -> None:
    """Opens all, and answers until the street ends, or its program dies."""
    given, street, sockets = asked.given, asked.street, asked.sockets
    fronts = Fronts(street) if given.front else None
    await street.open()
    loop = asyncio.get_running_loop()
    for number in (signal.SIGINT, signal.SIGTERM):
        loop.add_signal_handler(number, street.end)
    async with contextlib.AsyncExitStack() as stack:
        messages = messages_of(asked, stack)
        wire = wire_of(asked, messages)
        acts = Acts(street, asked.line or Line([], 0), messages.note if messages else lambda *_: None)
        obey(asked, acts, stack)
        asks: ports.Asked = fronts.datagram if fronts else street.datagram
        for transport in await ports.listening(sockets, asked.panel.hearing(asks) if asked.panel else asks, wire):
            stack.callback(transport.close)
        tell_places(street, [ports.place_of(port) for port in sockets])
        if asked.panel is not None:
            asked.panel.panel.acts, asked.panel.panel.has_alarms = acts, bool(given.front)
            await asked.panel.open(street, stack)
        if given.bind and not ipaddress.ip_address(given.bind).is_loopback:
            say(OPEN.format(given.bind))
        stack.push_async_callback(street.close)
        await held(street, asked.requests, given.replay is not None)


def checked(given: argparse.Namespace) -> str | None:
    """Returns what is wrong with the words together, None if nothing is."""
    if given.addresses and given.bind:
        return "--addresses are those of loopback; --bind names one address"
    if given.ticks_per_message is not None and not words.is_step(given):
        return "--ticks-per-message needs --speed step"
    if given.speed == 0 and given.panel is None:
        return "--speed 0 needs --panel, which starts the time"
    if given.allow_host and (given.panel is None or not given.bind):
        return "--allow-host goes with --panel and --bind"
    if given.panel is not None and words.is_anywhere(given.bind) and not given.allow_host:
        return f"--panel with --bind {given.bind} needs --allow-host NAME: how browsers call this machine"
    if given.resume == "" and not given.record:
        return "--resume without FILE goes on with the record of --record"
    if words.again(given) and given.scenario:
        return "a record has its own scenario"
    return None


def main(arguments: list[str] | None = None) -> int:
    """Does what the words ask for, and returns the exit status."""
    given = words.parser().parse_args(arguments)
    if wrong := checked(given):
        say(wrong)
        return Status.REFUSED
    try:
        hearers: list[Hearer] = [Telling()]
        if given.record:
            hearers.append(recorder_of(given))
        opened = None if given.panel is None else Opened(given)
        street, requests = street_of(given, [*hearers, *(opened.hearers() if opened else ())])
        line = line_of(pathlib.Path(given.line), len(street.scenario["cabinets"])) if given.line else None
        if opened:
            line = opened.panel.line = line or Line([], 0)
        elif given.commands:
            line = line or Line([], 0)
        wanted = ports.places(words.first_place(given), len(street.scenario["cabinets"]), given.addresses is not None)
        with ports.opened(wanted) as sockets:
            asyncio.run(served(Asked(given, street, requests, sockets, opened, line)))
        return Status.DONE
    except Fault as fault:
        say(fault)
        return int(fault.status)
    except NoProgram as fault:
        say(fault)
        return Status.NO_PROGRAM
    except OSError as fault:
        say(f"{fault.filename}: {fault.strerror}" if fault.filename else fault.strerror)
        return Status.FILE


if __name__ == "__main__":
    sys.exit(main())
