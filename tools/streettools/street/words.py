"""The options of `./arterial street`."""

import argparse
import ipaddress
import re

from ..shared.commandline import Parser, add_program, add_renamed, number
from .ports import LOOPBACK, Place

USUAL_PORT, USUAL_STEP = 10_161, 10
SLOWEST, FASTEST = 0.01, 1000.0
STEP = "step"
LEAST_HOURS, MOST_HOURS, TICKS_OF_AN_HOUR = 0.01, 24.0, 36_000
NAME = re.compile(r"[A-Za-z0-9]([A-Za-z0-9.-]{0,251}[A-Za-z0-9])?")
"""The name of a host."""

ABOUT = (
    "Runs the cabinets of a scenario as live cabinets: each answers SNMP version 1 at its own UDP port, until Ctrl-C."
)
AFTER = """A tick is 0.1 s. The ports are those of loopback: the protocol has no protection, so another address is
opened only if --bind names it. docs/STREET.md has details."""


def speed(text: str) -> float | str:
    """Reads a speed: a factor of real time, or the word for time that advances by messages."""
    if text == STEP:
        return STEP
    try:
        value = float(text)
    except ValueError:
        value = -1
    if value != 0 and not SLOWEST <= value <= FASTEST:
        raise argparse.ArgumentTypeError(f"{text!r} is not {STEP}, 0, nor from {SLOWEST} to {FASTEST:g}")
    return value


def hours(text: str) -> int:
    """Reads hours, and returns them as ticks."""
    try:
        value = float(text)
    except ValueError:
        value = -1
    if not LEAST_HOURS <= value <= MOST_HOURS:
        raise argparse.ArgumentTypeError(f"{text!r} is not from {LEAST_HOURS} to {MOST_HOURS:g} hours")
    return round(value * TICKS_OF_AN_HOUR)


def first_port(text: str) -> int:
    """Reads the first of some ports, with or without a plus."""
    return number(0, 65_535)(text.removesuffix("+"))


def first_address(text: str) -> str:
    """Reads the first of some addresses of loopback, with or without a plus."""
    address = ipaddress.ip_address(text.removesuffix("+"))
    if not address.is_loopback:
        raise argparse.ArgumentTypeError(f"{text} is not an address of loopback; --bind opens another one")
    return str(address)


def bound(text: str) -> str:
    """Reads an address."""
    return str(ipaddress.ip_address(text))


def host(text: str) -> str:
    """Reads the name or the address by which others call this machine."""
    try:
        return str(ipaddress.ip_address(text.strip("[]")))
    except ValueError:
        if not NAME.fullmatch(text):
            raise argparse.ArgumentTypeError(f"{text!r} is not the name of a host") from None
        return text.lower()


def parser() -> argparse.ArgumentParser:
    """Returns the reader of the options."""
    words = Parser("street", description=ABOUT, epilog=AFTER)
    words.add_argument(
        "--scenario", metavar="FILE",
        help="the scenario of the street, or its timing sheet; - is standard input (default: one standard cabinet, "
        "rounds of 1 s)",
    )
    words.add_argument(
        "--ports",
        type=first_port,
        default=USUAL_PORT,
        metavar="N+",
        help="the first port; the next cabinets follow (default: 10161+)",
    )
    words.add_argument(
        "--addresses", type=first_address, metavar="A+", help="one port at this and the next addresses, as 127.0.1.1+"
    )
    words.add_argument(
        "--bind", type=bound, metavar="ADDRESS", help="an address that others can reach (default: loopback only)"
    )
    words.add_argument(
        "--speed",
        type=speed,
        default=1.0,
        metavar="N",
        help="speed in multiples of real time, 0.01 to 1000; 0 with --panel: no time passes until the panel "
        "starts it; step: time advances by messages (default: 1)",
    )
    add_renamed(
        words, "--step", "--ticks-per-message", type=number(0, 864_000), metavar="TICKS",
        help="with --speed step: ticks that pass after each message (default: 10)",
    )  # fmt: skip
    words.add_argument(
        "--panel",
        type=number(0, 65_535),
        metavar="PORT",
        help="open a panel for the browser at this port; 0 for a free one",
    )
    words.add_argument(
        "--allow-host",
        action="append",
        default=[],
        type=host,
        metavar="NAME",
        help="with --panel and --bind: a name or address by which browsers call this machine; may be repeated",
    )
    words.add_argument(
        "--record", metavar="FILE",
        help="write the trace of the session to FILE, and its requests to a file next to it",
    )  # fmt: skip
    again = words.add_mutually_exclusive_group()
    again.add_argument(
        "--replay", metavar="FILE", help="replay this record in real time; then the street continues"
    )
    again.add_argument(
        "--resume", metavar="FILE", nargs="?", const="",
        help="replay at once the record of an earlier street (without FILE: the file of --record); then the street "
        "continues",
    )
    words.add_argument(
        "--session", type=hours, metavar="HOURS",
        help="begin a new session after this time, in hours of the street: 0.01 to 24 (default: as late as possible)",
    )  # fmt: skip
    words.add_argument(
        "--line", metavar="FILE", help="a bad line between managers and cabinets, described in TOML (docs/STREET.md)"
    )
    words.add_argument(
        "--messages", metavar="FILE",
        help="write every message to this file: lines of JSON, or a capture if its name ends in .pcap",
    )  # fmt: skip
    words.add_argument(
        "--commands", metavar="PIPE",
        help="execute the lines of this named pipe, made by mkfifo: reboot 3 10, hang 3 60, alarm 3 stopTime on",
    )  # fmt: skip
    words.add_argument(
        "--as", dest="front", choices=["ntcip1202"],
        help="also answer objects outside the proved profile (docs/SNMP-CONFORMANCE.md)",
    )
    add_program(words)
    return words


def first_place(given: argparse.Namespace) -> Place:
    """Returns where the first cabinet answers."""
    return Place(given.bind or given.addresses or LOOPBACK, given.ports)


def again(given: argparse.Namespace) -> str | None:
    """Returns the record that is to happen again."""
    record: str | None = given.record if given.resume == "" else given.resume or given.replay
    return record


def is_anywhere(address: str | None) -> bool:
    """Returns whether an address means all of this machine's, as 0.0.0.0 does."""
    return address is not None and ipaddress.ip_address(address).is_unspecified


def panel_name(given: argparse.Namespace) -> str:
    """Returns by which name or address the panel is called."""
    first: str = given.allow_host[0] if given.allow_host else given.bind or LOOPBACK
    return first


def is_step(given: argparse.Namespace) -> bool:
    """Returns whether time advances by messages."""
    return bool(given.speed == STEP)
