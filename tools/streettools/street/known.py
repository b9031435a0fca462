"""What messages have set in each cabinet, but can't be read from it: the number of its last download, and the date.

Both hear every request with its answer, as the inputs do, so that the replay of a record gives them the same.
"""

import calendar
import time
from collections.abc import Iterator
from typing import Any

from ..shared.ber import INTEGER, Arcs, Field, Malformed, name_content, number_content, number_of
from ..shared.oids import BEGIN, CLOCK
from ..shared.session import Answer
from ..shared.snmp import SET, V1, Binding, Message, message_of, octets_of
from .session import reply_in

DAY = 86_400
TICKS_OF_A_DAY = 10 * DAY
SET_DIGITS = b"%02x" % SET
"""What every Set has among its digits, and few Gets have."""
LAST_NUMBER, GAP = (1 << 31) - 1, 100


def set_to(octets: bytes, name: Arcs) -> Iterator[tuple[Message, int]]:
    """Yields the numbers to which a message would set an object, each with the message."""
    try:
        asked = message_of(octets)
    except Malformed:
        return
    if asked.kind == SET:
        for it in asked.bindings:
            if it.arcs == name and it.value.tag == INTEGER:
                yield asked, number_of(it.value.content)


def taken(request: bytes, answer: Answer, name: Arcs) -> Iterator[tuple[int, Message, int]]:
    """Yields the numbers to which a request has set an object, each with the cabinet and the message."""
    reply = reply_in(answer) if answer else None
    if reply is None or message_of(reply).first != 0:
        return
    _, cabinet, _, digits = request.split(b" ")
    for asked, number in set_to(bytes.fromhex(digits.decode("ascii")), name):
        yield int(cabinet), asked, number


class Downloads:
    """The greatest number of each cabinet's downloads: a download needs a greater one than all before.

    The master's downloads, which have the numbers from 1 on, and those of the scenario's own messages count from the
    start: of two downloads with one number the second would be answered as a copy of the first, and load nothing."""

    DIGITS = name_content(BEGIN).hex().encode()

    def __init__(self) -> None:
        self.greatest: dict[int, int] = {}

    def began(self, scenario: dict[str, Any]) -> None:
        """A session begins."""
        self.greatest = {number: 0 for number in range(1, len(scenario["cabinets"]) + 1)}
        for it in scenario.get("loads", ()):
            self.greatest[it["cabinet"]] += 1
        for it in scenario.get("frames", ()):
            for _, number in set_to(bytes.fromhex(it["hex"]), BEGIN):
                self.begun(it["cabinet"], number)

    def heard(self, request: bytes | None, answer: Answer) -> None:
        """Takes a request that was answered."""
        if request is not None and SET_DIGITS in request and self.DIGITS in request:
            for cabinet, _, number in taken(request, answer, BEGIN):
                self.begun(cabinet, number)

    def begun(self, cabinet: int, number: int) -> None:
        """Takes the number of a download."""
        self.greatest[cabinet] = max(self.greatest[cabinet], number)

    def next(self, cabinet: int) -> int | None:
        """Returns a number that a cabinet takes for a download, None if none is left. It is above the greatest by a
        gap, so that a manager that counts on from that one doesn't use the same number."""
        greatest = self.greatest[cabinet]
        return min(greatest + GAP, LAST_NUMBER) if greatest < LAST_NUMBER else None


def near(due: int, clock: int) -> int:
    """Returns the time of a clock next to an expected one, in ticks since 1970."""
    half = TICKS_OF_A_DAY // 2
    return due + (clock - due + half) % TICKS_OF_A_DAY - half


class Clocks:
    """The dates of the cabinets, whose own clocks have a time of day only.

    A clock that passes midnight begins the next day; one that is set to another time stays in its day. The date is
    that of the machine (UTC) until `globalTime` is set. The number of the message by which the front does that names
    the date: it is -1 less the days since 1970."""

    DIGITS = name_content(CLOCK).hex().encode()

    def __init__(self, today: int | None = None) -> None:
        self.today = today
        self.ticks = 0
        self.known: dict[int, tuple[int, int]] = {}
        """By cabinet: the ticks at which the time was known last, and that time in ticks since 1970."""
        self.dated: set[int] = set()
        """The cabinets whose date was set."""

    def began(self, scenario: dict[str, Any]) -> None:
        """A session begins, the first one or one that follows another."""
        today = calendar.timegm(time.gmtime()) // DAY if self.today is None else self.today
        for number, it in enumerate(scenario["cabinets"], 1):
            clock = it.get("clock", 0)
            time_there = near(self.expected(number), clock) if number in self.known else today * TICKS_OF_A_DAY + clock
            self.known[number] = (0, time_there)
        self.ticks = 0

    def heard(self, request: bytes | None, answer: Answer) -> None:
        """Takes a request that was answered."""
        if request is None:
            return
        if request.startswith(b"tick "):
            self.ticks += int(request[5:])
        elif SET_DIGITS in request and self.DIGITS in request:
            for cabinet, asked, clock in taken(request, answer, CLOCK):
                self.set(cabinet, asked.number, clock)

    def set(self, cabinet: int, number: int, clock: int) -> None:
        """Takes a clock that was set by a message of this number."""
        if number < 0:
            self.dated.add(cabinet)
        day = -1 - number if number < 0 else self.expected(cabinet) // TICKS_OF_A_DAY
        self.known[cabinet] = (self.ticks, day * TICKS_OF_A_DAY + clock)

    def setting(self, cabinet: int, clock: int, community: bytes) -> bytes:
        """Returns the message that sets a clock and names the date that is known."""
        day = self.expected(cabinet) // TICKS_OF_A_DAY
        bound = Binding(CLOCK, Field(INTEGER, number_content(clock)))
        return octets_of(Message(V1, community, SET, -1 - day, 0, 0, [bound]))

    def expected(self, cabinet: int) -> int:
        """Returns the time that a cabinet has by the ticks that went by, in ticks since 1970."""
        ticks, then = self.known[cabinet]
        return then + self.ticks - ticks

    def seconds(self, cabinet: int, clock: int) -> int:
        """Returns the seconds since 1970 of a cabinet whose clock was read: the time next to the expected one, since
        clocks drift and the master sets them."""
        found = near(self.expected(cabinet), clock)
        self.known[cabinet] = (self.ticks, found)
        return found // 10
