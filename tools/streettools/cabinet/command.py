"""The command `./cabinet`: a street of one cabinet, with its own options."""

import argparse
import asyncio
import json
import pathlib
import signal
import subprocess
from dataclasses import dataclass
from typing import TYPE_CHECKING, Any

from ..shared import files, saying
from ..shared.commandline import Parser, add_program, add_renamed, number
from ..shared.fault import Fault
from ..shared.program import Died, NoProgram, answering, trace_of
from ..shared.session import Answer
from ..shared.session_record import MOST_FRAMES, MOST_SCENARIO, SessionRecord
from ..shared.status import Status
from ..street import ports
from ..street.pace import Pace
from ..street.street import Hearer, Street, rounds_for
from .alone import alone, compact, with_all

if TYPE_CHECKING:
    from ..plan.names import Names

USUAL = b'{"version":1,"rounds":1,"ticks":10,"cabinets":[{}]}'
"""The default scenario: the standard tables, rounds of a second."""
OF_FRAME = 80
"""How many bytes an item of `frames` has in addition to its digits, at most."""


class Full(Exception):
    """A limit of scenarios is reached, in words."""


def say(words: object) -> None:
    """Writes a line to standard error."""
    saying.say("cabinet", words)


class Sets(Hearer):
    """Keeps the messages that came and may have changed something, for the scenario that is written at the end."""

    def __init__(self, scenario: dict[str, Any]) -> None:
        self.frames = MOST_FRAMES - len(scenario.get("frames", ()))
        self.octets = MOST_SCENARIO - len(compact(scenario)) - OF_FRAME
        self.record: SessionRecord

    def began(self, scenario: dict[str, Any]) -> None:
        self.record = SessionRecord(scenario, keeps_reads=False)

    def heard(self, request: bytes | None, answer: Answer) -> None:
        self.record.answered(request, answer)
        self.record.lines.cut(0)

    def size(self) -> int:
        """Returns about how many bytes the messages have in a scenario."""
        return self.record.added_size + OF_FRAME * len(self.record.added["frames"])

    def is_full(self) -> bool:
        return len(self.record.added["frames"]) >= self.frames or self.size() >= self.octets


@dataclass
class Cabinet:
    """A cabinet that answers: its street, its place, the whole scenario, and the messages that it received."""

    words: argparse.Namespace
    scenario: dict[str, Any]
    street: Street
    sets: Sets | None

    def limit(self) -> str:
        """Returns the limit that is reached, in words."""
        if self.sets is not None and self.sets.is_full():
            return "the record is full: a scenario has at most 100000 messages and 16777216 bytes"
        return (
            f"the session limit is reached ({self.street.scenario['rounds']} rounds): restart, or use a scenario with "
            "longer rounds"
        )

    async def serve(self) -> None:
        """Answers until it has to end; raises Full if a limit is reached."""
        with ports.opened([ports.Place(ports.LOOPBACK, self.words.port)]) as sockets:
            await self.street.open()
            for it in (signal.SIGINT, signal.SIGTERM):
                asyncio.get_running_loop().add_signal_handler(it, self.street.end)
            transports = await ports.listening(sockets, self.street.datagram)
            community = self.scenario.get("community", "public")
            place = ports.place_of(sockets[0])
            say(f"cabinet {self.words.cabinet} answers at {place}, community {community}")
            try:
                await self.street.live()
                await self.street.close()
            finally:
                for transport in transports:
                    transport.close()
        if not self.street.ended.is_set():
            raise Full(self.limit())

    def write(self) -> None:
        """Writes the scenario of all that came, if --record-scenario is given."""
        if self.sets is not None:
            text = with_all(
                self.scenario, self.words.cabinet, self.sets.record.number, self.sets.record.added["frames"]
            )
            with files.whole(self.words.record_scenario) as name:
                pathlib.Path(name).write_bytes(text)


def parser() -> argparse.ArgumentParser:
    """Returns the reader of the options."""
    words = Parser(
        "cabinet",
        description="Answers SNMP version 1 on loopback as a live cabinet, until Ctrl-C. A tick is 0.1 s.",
        epilog="`./arterial street --as ntcip1202` answers version 2c too, and what central software asks first.",
    )
    words.add_argument(
        "--port", type=number(0, 65_535), default=10_161, help="the UDP port; 0 for a free one (default: 10161)"
    )
    words.add_argument(
        "--scenario", metavar="FILE",
        help="the scenario or timing sheet to run; - is standard input (default: one standard cabinet, rounds of 1 s)",
    )  # fmt: skip
    words.add_argument(
        "--cabinet", default="1", metavar="NAME",
        help="which cabinet of the scenario answers, by number or name (default: 1)",
    )
    add_renamed(
        words, "--step", "--ticks-per-message", type=number(0, 864_000), metavar="TICKS",
        help="ticks that pass after each message (default: real time)",
    )  # fmt: skip
    add_renamed(
        words, "--record", "--record-scenario", metavar="FILE",
        help="at the end write the scenario of all received messages, for arterial run",
    )  # fmt: skip
    add_program(words)
    return words


def scenario_of(program: pathlib.Path, name: str | None) -> tuple[dict[str, Any], "Names"]:
    """Returns the scenario of a file, once the program has taken it, with its names."""
    from ..plan import names, streets  # takes a while

    text, known = streets.text_of(name) if name else (USUAL, None)
    trace_of(program, text, out=subprocess.DEVNULL)
    return json.loads(text), known or names.Names()


def cabinet_of(words: argparse.Namespace) -> Cabinet:
    """Returns the cabinet that the words ask for."""
    program = answering(words.program, say)
    scenario, names = scenario_of(program, words.scenario)
    words.cabinet = names.number(words.cabinet, len(scenario["cabinets"]), "the scenario")
    sets = Sets(scenario) if words.record_scenario else None
    pace = Pace(1.0 if words.ticks_per_message is None else 0.0)
    street = Street(str(program), alone(scenario, words.cabinet), pace, [] if sets is None else [sets])
    street.scenario["rounds"] = rounds_for(scenario)
    street.after_message, street.stops_at_end = words.ticks_per_message or 0, True
    return Cabinet(words, scenario, street, sets)


def answered(cabinet: Cabinet) -> int:
    """Runs a cabinet until it ends, and returns the exit status."""
    status = Status.DONE
    try:
        asyncio.run(cabinet.serve())
    except Full as full:
        say(full)
        status = Status.FULL
    cabinet.write()
    return status


def main(arguments: list[str] | None = None) -> int:
    """Runs the command, and returns the exit status."""
    words = parser().parse_args(arguments)
    # even if it was started with SIGINT ignored, as a shell does after `&`
    signal.signal(signal.SIGINT, signal.default_int_handler)
    try:
        return answered(cabinet_of(words))
    except Fault as fault:
        say(fault)
        return fault.program_status if isinstance(fault, Died) else fault.status
    except NoProgram as fault:
        say(fault)
        return Status.NO_PROGRAM
    except OSError as fault:
        say(f"{fault.filename}: {fault.strerror}" if fault.filename else fault.strerror)
        return Status.FILE
    except KeyboardInterrupt:
        return Status.DONE
