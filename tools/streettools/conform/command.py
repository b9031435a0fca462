"""The command `./arterial conform`: it tests a controller at an address against the proved cabinet."""

import argparse
import asyncio
import ipaddress
import pathlib
import statistics
import sys
from typing import TYPE_CHECKING

from ..shared import saying
from ..shared.commandline import Parser, add_json, add_program, number
from ..shared.fault import Fault
from ..shared.program import answering
from ..shared.progress import bar
from ..shared.status import Status
from . import scripts

if TYPE_CHECKING:
    from .driving import Bench
    from .load import Loaded
    from .report import Report

ABOUT = (
    "Tests a controller: gives it and the proved cabinet the same calls and commands, watches both, and says where "
    "they differ for the first time."
)
EPILOG = """\
examples:
  ./arterial street --as ntcip1202 --speed step --ticks-per-message 1     # a device to try it with, at port 10161
  ./arterial conform 127.0.0.1:10161 --speed step                         # all tests of the library
  ./arterial conform 127.0.0.1:10161 --speed step --only Preempts -o report.html -o report.xml
  ./arterial conform 127.0.0.1:10161 --dry-run                            # list every Set, and send none
  ./arterial conform 192.0.2.7:161 --anywhere --yes my-tests.toml --sheet plan.toml

A test differs if the device and the proved cabinet show different things, or if the device shows something unsafe. A
test that the device can't do has the result "can't tell". The exit status is 0 if no test differs, 2 if one does;
docs/CONFORM.md explains tests and reports.
"""


def say(words: object) -> None:
    """Writes a line to standard error."""
    saying.say("conform", words)


def speed(text: str) -> float:
    """Reads a speed: a number, or `step` as 0."""
    if text == "step":
        return 0.0
    value = float(text)
    if not 0.01 <= value <= 1000:
        raise argparse.ArgumentTypeError(f"{text} is not 0.01 to 1000, or step")
    return value


setattr(speed, "takes", "0.01 to 1000, or step")


def seconds(text: str) -> float:
    """Reads a number of seconds."""
    value = float(text)
    if not 0.01 <= value <= 60:
        raise argparse.ArgumentTypeError(f"{text} is not 0.01 to 60")
    return value


setattr(seconds, "takes", "0.01 to 60")


def add_device(words: argparse.ArgumentParser) -> None:
    """Adds the options about the device."""
    words.add_argument("--community", default="public", help="the community (default: public)")
    words.add_argument(
        "--sheet", metavar="FILE", help="a timing sheet with the tables that the device doesn't report"
    )
    words.add_argument(
        "--speed", type=speed, default=1.0, metavar="N",
        help="the device's time as a multiple of real time, for simulated devices; step: each message advances it, as "
        "that of `./arterial street --speed step` (default: 1)",
    )  # fmt: skip
    words.add_argument(
        "--patience", type=seconds, default=1.0, metavar="S",
        help="how many seconds to wait for an answer; each message is sent at most three times (default: 1)",
    )  # fmt: skip
    words.add_argument(
        "--channel", metavar="CHANNEL", help="a second channel for detectors, buttons and preempts: udp:HOST:PORT, "
        "serial:PATH:SPEED or FILE.py:CLASS (default: the device's objects)",
    )  # fmt: skip
    words.add_argument(
        "--events", metavar="FILE.py:CLASS", help="what the device itself reports of its display, by traps or in a "
        "log: it is judged to the tick (default: only polls)",
    )  # fmt: skip
    words.add_argument("--anywhere", action="store_true", help="allow a device that is not on this machine")
    words.add_argument("--yes", action="store_true", help="allow Sets on a device that is not on this machine")


def add_load(words: argparse.ArgumentParser) -> None:
    """Adds the options about load."""
    words.add_argument(
        "--load", type=number(1, 500), metavar="POLLERS",
        help="after the tests, put the device under load: this number of pollers, and damaged messages",
    )  # fmt: skip
    words.add_argument(
        "--load-time", type=number(1, 3600), default=10, metavar="S",
        help="how many seconds the load lasts (default: 10)",
    )  # fmt: skip
    words.add_argument(
        "--line", metavar="FILE", help="with --load: a TOML file that describes a bad line (docs/STREET.md)"
    )


def parser() -> argparse.ArgumentParser:
    """Returns the reader of the arguments."""
    words = Parser("conform", description=ABOUT, epilog=EPILOG)
    words.add_argument("where", metavar="HOST:PORT", nargs="?", help="the device")
    words.add_argument(
        "files", metavar="FILE", nargs="*", help="tests: TOML files, or scenarios (default: the library of tests)"
    )
    words.add_argument(
        "--only", action="append", default=[], metavar="NAME", help="only this test or subject; may be repeated"
    )
    words.add_argument("--list", action="store_true", help="list the tests and end; a device isn't needed")
    words.add_argument("--dry-run", action="store_true", help="list every Set of the tests and end; nothing is set")
    add_device(words)
    add_load(words)
    words.add_argument(
        "-o", "--output", action="append", default=[], metavar="FILE",
        help="a file for the report: .html, .json, .xml (JUnit) or text; .svg, .png or .pdf is the picture of the "
        "first test that differs; may be repeated (default: text on standard output)",
    )  # fmt: skip
    add_json(words)
    words.add_argument("--strict", action="store_true", help='status 2 also if a test has the result "can\'t tell"')
    add_program(words)
    return words


def place_of(text: str, anywhere: bool) -> tuple[str, int]:
    """Returns the address and the port of a device."""
    from ..plan import live  # takes a while

    host, _, port = text.rpartition(":")
    if not host or not port.isdecimal() or not 0 < int(port) < 65_536:
        raise Fault(f"{text}: a host and a port are wanted, as 127.0.0.1:10161")
    return live.address(host, anywhere), int(port)


def is_here(address: str) -> bool:
    """Tells whether an address is on this machine."""
    return ipaddress.ip_address(address).is_loopback


def main(arguments: list[str]) -> int:
    """Runs the command, and returns the exit status."""
    given = parser().parse_intermixed_args(arguments)
    if given.list:
        files = ([given.where] if given.where else []) + given.files
        saying.printed("".join(f"{it}\n" for it in scripts.listed(scripts.chosen(scripts.all_of(files), given.only))))
        return Status.DONE
    if given.where is None:
        raise Fault("HOST:PORT of the device is missing; --help lists the options")
    tests = scripts.chosen(scripts.all_of(given.files), given.only)
    where = place_of(given.where, given.anywhere)
    if not is_here(where[0]) and not given.yes and not given.dry_run:
        raise Fault(f"{given.where} is not on this machine: --dry-run lists what would be set, --yes allows it")
    return conformed(given, tests, where)


def conformed(given: argparse.Namespace, tests: list[scripts.Script], where: tuple[str, int]) -> int:
    """Does the tests, and writes the reports."""
    from . import events
    from .channels import opened
    from .device import Device
    from .hands import Hands
    from .planned import planned
    from .reading import bench_of, tables_read
    from .report import Report

    program = answering(given.program, say)
    channel = opened(given.channel, lambda host: place_of(f"{host}:1", given.anywhere)[0]) if given.channel else None
    source = events.opened(given.events) if given.events else None
    device = Device(where, given.community, given.patience)
    try:
        tables, notes = tables_read(where, given.community, given.sheet)
        hands = Hands(channel)
        if given.dry_run:
            from ..shared.oids import CONTROL

            command = device.get([CONTROL]).get(CONTROL, 0)
            saying.printed("".join(f"{it}\n" for it in planned(tests, tables, hands, command)))
            return Status.DONE
        bench, more = bench_of(
            device, hands, given.speed, tables, lambda: tables_read(where, given.community, given.sheet)[0]
        )
        bench.events = source
        if source is not None and not bench.is_stamped:
            raise Fault("--events: the device's sysUpTime doesn't count, so its changes have no times")
        report = Report(given.where, program_words(program), counts=device.counts, notes=[*notes, *more])
        run_all(bench, tests, str(program), report)
        if given.load:
            report.load = under_load(given, where)
    finally:
        device.close()
        for it in (channel, source):
            if it is not None:
                it.close()
    return ended(given, report)


def program_words(program: pathlib.Path) -> str:
    """Returns what the device is compared with, in words."""
    from ..shared.program import MODEL

    return "the independent model (nothing is proved of it)" if str(program) == MODEL else "the proved cabinet"


def run_all(bench: "Bench", tests: list[scripts.Script], program: str, report: "Report") -> None:
    """Does all tests, and gives the device its own tables and command back, even if the tests are interrupted."""
    from .driving import CantTell
    from .preparing import restore
    from .testing import tested

    shown = bar(len(tests), "test")
    try:
        for script in tests:
            if shown is not None:
                shown.set_description(script.name)
            result = tested(bench, script, program)
            report.results.append(result)
            if shown is not None:
                shown.update(1)
            else:
                say(f"{result.outcome}: {script.name}")
    finally:
        if shown is not None:
            shown.close()
        try:
            restore(bench) if bench.was_used else None
        except (CantTell, Fault) as why:
            report.notes.append(f"the device doesn't have its own tables and command again: {why}")


def under_load(given: argparse.Namespace, where: tuple[str, int]) -> "Loaded":
    """Puts the device under load, and returns the result."""
    from ..street.line import line_of
    from . import load
    from .device import Device
    from .reading import walked

    line = line_of(pathlib.Path(given.line), 1) if given.line else None
    found = load.Loaded(given.load, given.load_time)
    before = walked(where, given.community)
    device = Device(where, given.community, given.patience)
    try:
        for _ in range(20):
            device.get(load.POLLED)
        found.alone = statistics.median(device.counts.seconds)
        asyncio.run(load.run(where, device.community, found, line))
        try:
            device.get(load.POLLED)
            after = walked(where, given.community)
            found.changed = load.differing(load.of_plan(before), load.of_plan(after))
        except Fault:
            found.is_alive = False
    finally:
        device.close()
    return found


def ended(given: argparse.Namespace, report: "Report") -> int:
    """Writes the reports, and returns the exit status."""
    import json

    from .report import as_json, text_lines, written
    from .testing import UNKNOWN

    for path in given.output:
        written(report, path)
    if given.json:
        saying.printed(json.dumps(as_json(report), indent=2, ensure_ascii=False) + "\n")
    elif not given.output:
        saying.printed("".join(f"{line}\n" for line in text_lines(report)))
    is_bad = report.differs() or given.strict and report.count(UNKNOWN) > 0
    return Status.REFUSED if is_bad else Status.DONE


if __name__ == "__main__":
    sys.exit(main(sys.argv[1:]))
