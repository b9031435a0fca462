"""Messages as a file, while they come: a line of JSON for each datagram, or a capture that Wireshark opens."""

import contextlib
import datetime
import ipaddress
import json
import os
import pathlib
import struct
import time
from collections.abc import Callable
from typing import Any, BinaryIO

from ..shared.ber import Malformed
from .line import IN, Passed
from .panel.names import answered_text, asked_text
from .street import Manager

PCAP, RAW_IP, LONGEST_FRAME = 0xA1B2C3D4, 101, 65_535
"""The number by which a capture begins (microseconds), its kind of frames, and the most octets of one."""
UDP, HOPS = 17, 64
PCAP_ENDING = ".pcap"


def text_of(octets: bytes, way: str) -> str:
    """Returns a datagram in words."""
    try:
        return asked_text(octets) if way == IN else answered_text(octets)
    except Malformed:
        return f"{len(octets)} octets that are not a message"


def frame(source: Manager, target: Manager, octets: bytes) -> bytes:
    """Returns a datagram with the headers of IP and UDP. The sum of UDP is left out, which IPv4 allows."""
    ports = struct.pack(">HHHH", source[1], target[1], 8 + len(octets), 0) + octets
    first, second = (ipaddress.ip_address(it[0].partition("%")[0]) for it in (source, target))
    if first.version == 6:
        head = struct.pack(">IHBB", 6 << 28, len(ports), UDP, HOPS)
        return head + first.packed + second.packed + ports
    head = struct.pack(">BBHHHBBH", 0x45, 0, 20 + len(ports), 0, 0, HOPS, UDP, 0) + first.packed + second.packed
    total = sum(struct.unpack(">10H", head))
    while total >> 16:
        total = (total & 0xFFFF) + (total >> 16)
    return head[:10] + struct.pack(">H", ~total & 0xFFFF) + head[12:] + ports


class Messages:
    """The file of messages. Only its owner may read it."""

    def __init__(self, path: pathlib.Path, ticks: Callable[[], int]) -> None:
        self.path, self.ticks = path, ticks
        self.is_capture = path.suffix == PCAP_ENDING
        self.places: list[Manager] = []
        """Where each cabinet answers."""
        place = os.open(path, os.O_WRONLY | os.O_CREAT | os.O_TRUNC | os.O_NOFOLLOW | os.O_CLOEXEC, 0o600)
        self.file: BinaryIO = os.fdopen(place, "wb")
        if self.is_capture:
            self.file.write(struct.pack("<IHHiIII", PCAP, 2, 4, 0, 0, LONGEST_FRAME, RAW_IP))

    def add(self, it: Passed) -> None:
        """Adds a datagram; a fault names the file."""
        try:
            self.write(it)
            self.file.flush()
        except OSError as fault:
            raise OSError(fault.errno, fault.strerror, str(self.path)) from None

    def write(self, it: Passed) -> None:
        """Writes a datagram. A capture has those that arrive."""
        if not self.is_capture:
            self.add_row(self.row(it))
        elif it.arrives:
            here = self.places[it.cabinet - 1]
            octets = frame(it.manager, here, it.octets) if it.way == IN else frame(here, it.manager, it.octets)
            now = time.time_ns() // 1000
            self.file.write(struct.pack("<IIII", now // 1_000_000, now % 1_000_000, len(octets), len(octets)) + octets)

    def add_row(self, row: dict[str, Any]) -> None:
        """Adds a line of JSON."""
        self.file.write(json.dumps(row, separators=(",", ":")).encode() + b"\n")
        self.file.flush()

    def when(self) -> dict[str, Any]:
        """Returns the time and the tick of now."""
        now = datetime.datetime.now(datetime.timezone.utc)
        return {"time": now.isoformat(timespec="microseconds").replace("+00:00", "Z"), "tick": self.ticks()}

    def row(self, it: Passed) -> dict[str, Any]:
        """Returns what is written of a datagram."""
        return {
            **self.when(), "cabinet": it.cabinet, "peer": f"{it.manager[0]}:{it.manager[1]}", "way": it.way,
            "line": [*it.words], "arrives": it.arrives, "octets": it.octets.hex(), "words": text_of(it.octets, it.way),
        }  # fmt: skip

    def note(self, cabinet: int, act: str) -> None:
        """Adds what a user has done to a cabinet; a capture has no place for it."""
        if not self.is_capture:
            self.add_row({**self.when(), "cabinet": cabinet, "act": act})

    def close(self) -> None:
        """Closes the file. What couldn't be written is known by then."""
        with contextlib.suppress(OSError):
            self.file.close()
