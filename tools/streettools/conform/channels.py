"""A second channel to the device's inputs, for a device whose inputs aren't set by SNMP: a detector box.

`Channel` is the interface. Two channels are here: one line of text for each change, to a UDP port or to a serial line.
A maker's own channel is a class in a file, named as `--channel box.py:Box`; it is made without arguments.
"""

import abc
import importlib.util
import os
import pathlib
import socket
import termios
import tty
from typing import Any, Protocol

from ..shared.fault import Fault
from ..shared.status import Status

HAS = ("vehicle", "button", "preempt", "close")
"""What a maker's own channel has."""
SPEEDS = {it: getattr(termios, f"B{it}") for it in (1200, 2400, 4800, 9600, 19200, 38400, 57600, 115200)}


class Channel(Protocol):
    """What changes the inputs of a device. Each call returns once the change was sent."""

    def vehicle(self, phase: int, on: bool) -> None:
        """Turns the detector of a phase on or off."""

    def button(self, phase: int) -> None:
        """Presses the push button of a phase."""

    def preempt(self, number: int, on: bool) -> None:
        """Turns the input of a preempt on or off."""

    def close(self) -> None:
        """Ends the channel."""


class Lines(abc.ABC):
    """A channel of lines: `veh 4 on`, `ped 2`, `preempt 1 off`."""

    @abc.abstractmethod
    def write(self, line: bytes) -> None:
        """Sends a line with its newline."""

    def vehicle(self, phase: int, on: bool) -> None:
        """Sends a detector's change."""
        self.write(b"veh %d %s\n" % (phase, b"on" if on else b"off"))

    def button(self, phase: int) -> None:
        """Sends a press of a button."""
        self.write(b"ped %d\n" % phase)

    def preempt(self, number: int, on: bool) -> None:
        """Sends a preempt's change."""
        self.write(b"preempt %d %s\n" % (number, b"on" if on else b"off"))


class Datagrams(Lines):
    """Lines to a UDP port, each in a datagram."""

    def __init__(self, host: str, port: int) -> None:
        self.socket = socket.socket(socket.AF_INET, socket.SOCK_DGRAM)
        self.socket.connect((host, port))

    def write(self, line: bytes) -> None:
        self.socket.send(line)

    def close(self) -> None:
        """Closes the socket."""
        self.socket.close()


class Serial(Lines):
    """Lines to a serial line, with eight bits, no parity and one stop bit."""

    def __init__(self, path: str, speed: int) -> None:
        try:
            self.line = os.open(path, os.O_RDWR | os.O_NOCTTY)
            tty.setraw(self.line)
            settings = termios.tcgetattr(self.line)
            settings[4] = settings[5] = SPEEDS[speed]
            termios.tcsetattr(self.line, termios.TCSANOW, settings)
        except (OSError, termios.error) as fault:
            raise Fault(f"{path}: not a serial line: {fault}", Status.FILE) from None

    def write(self, line: bytes) -> None:
        while line:
            line = line[os.write(self.line, line) :]

    def close(self) -> None:
        """Closes the line."""
        os.close(self.line)


def own(path: str, name: str, has: tuple[str, ...]) -> Any:
    """Returns an object of a class in a file, which has these methods."""
    spec = importlib.util.spec_from_file_location(pathlib.Path(path).stem, path)
    if spec is None or spec.loader is None or not pathlib.Path(path).is_file():
        raise Fault(f"{path}: no such file of Python", Status.FILE)
    module = importlib.util.module_from_spec(spec)
    try:
        spec.loader.exec_module(module)
        made = getattr(module, name)()
    except Exception as fault:
        raise Fault(f"{path}: {name}: {type(fault).__name__}: {fault}") from None
    if not all(callable(getattr(made, it, None)) for it in has):
        raise Fault(f"{path}: {name} lacks one of {', '.join(has)}")
    return made


def opened(given: str, address: "object") -> Channel:
    """Returns the channel that a word names: `udp:HOST:PORT`, `serial:PATH` or `serial:PATH:SPEED`, `FILE.py:CLASS`.
    `address` is called with a host, and returns its address if it is allowed."""
    kind, _, rest = given.partition(":")
    if kind == "udp":
        host, _, port = rest.rpartition(":")
        if host and port.isdecimal() and 0 < int(port) < 65_536 and callable(address):
            return Datagrams(address(host), int(port))
    if kind == "serial" and rest:
        path, _, speed = rest.partition(":")
        if (speed or "9600").isdecimal() and int(speed or 9600) in SPEEDS:
            return Serial(path, int(speed or 9600))
    path, _, name = given.rpartition(":")
    if path.endswith(".py") and name.isidentifier():
        found: Channel = own(path, name, HAS)
        return found
    raise Fault(f"{given} is not a channel: udp:HOST:PORT, serial:PATH:SPEED or FILE.py:CLASS")
