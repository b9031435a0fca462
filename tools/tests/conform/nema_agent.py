"""SUMO's NEMA controller behind a small agent of SNMP version 1: what it shows, its phase table, one command.

    nema_agent.py

It prints its port. Each message advances SUMO by 0.1 s, as `arterial street --speed step` does. The command flash (255)
ends the simulation, and any other command begins a new one: SUMO has neither flash nor a start-up. It has no inputs, no
preempts, no transactions and no patterns that can be commanded.
"""

import bisect
import pathlib
import socket
import sys
import tempfile
import xml.etree.ElementTree as xml

sys.dont_write_bytecode = True
TOP = pathlib.Path(__file__).resolve().parents[3]
sys.path.insert(0, str(TOP / "tools"))

from streettools.conform.objects import FLASH, GREENS, REDS, UP_TIME, WALKS, YELLOWS, group  # noqa: E402
from streettools.cosim import drive, network  # noqa: E402
from streettools.cosim.mapping import read_map  # noqa: E402
from streettools.cosim.yardsticks import nema, served_by, states  # noqa: E402
from streettools.shared import ber, snmp  # noqa: E402
from streettools.shared.cells import kinds, value  # noqa: E402
from streettools.shared.oids import CONTROL, STATUS, object_of  # noqa: E402
from streettools.shared.tables import Tables  # noqa: E402

FOLDER = TOP / "scenarios/sumo/street"
TABLES = Tables("std8", [["phase", it, 21, 1 + 64 * (it in (2, 6))] for it in range(1, 9)])
LETTERS = {"G": GREENS, "g": GREENS, "y": YELLOWS}
NO_SUCH_NAME, READ_ONLY = 2, 4


def text(number):
    """Returns a number as a value."""
    return ber.Field(ber.INTEGER, ber.number_content(number))


class Signal:
    """A signal of a SUMO that runs with NEMA's logic, or of none."""

    def __init__(self):
        self.sumo, self.mapped = drive.module(), read_map(FOLDER / "street.map.toml").signals[0]
        known = network.read(FOLDER / "street.net.xml")
        head, rows = nema(self.mapped, known, TABLES, 0)
        root = xml.Element("additional")
        element = xml.SubElement(root, "tlLogic", {key: str(it) for key, it in head.items()})
        for tag, words in rows:
            xml.SubElement(element, tag, {key: str(it) for key, it in words.items()})
        self.folder = tempfile.TemporaryDirectory()
        self.added = pathlib.Path(self.folder.name) / "nema.add.xml"
        xml.ElementTree(root).write(self.added)
        self.links = {phase: states(self.mapped, known, {phase}).find("G") for phase in served_by(self.mapped)}
        self.runs, self.ticks = False, 0

    def begin(self):
        """Begins a new simulation."""
        self.stop()
        words = ["sumo", "-n", str(FOLDER / "street.net.xml"), "-a", str(self.added), "--step-length", "0.1",
                 "--no-step-log", "--no-warnings"]  # fmt: skip
        self.sumo.start(words)
        self.runs = True

    def stop(self):
        """Ends the simulation."""
        if self.runs:
            self.sumo.close()
        self.runs = False

    def step(self):
        """Advances by a tick."""
        self.ticks += 1
        if self.runs:
            self.sumo.simulationStep()

    def bits(self):
        """Returns the bits of reds, yellows and greens."""
        found = {REDS: 0, YELLOWS: 0, GREENS: 0}
        shown = self.sumo.trafficlight.getRedYellowGreenState(self.mapped.id) if self.runs else ""
        for phase in range(1, 9):
            link = self.links.get(phase, -1)
            found[LETTERS.get(shown[link] if shown and link >= 0 else "r", REDS)] |= 1 << phase - 1
        return found


class Agent:
    """The objects of the signal, and the answers to messages."""

    def __init__(self):
        self.signal, self.command = Signal(), 254
        cells = {cell: value(TABLES, cell) for cell in kinds() if cell[0] == "phase"}
        cells |= {cell: value(TABLES, cell) for cell in kinds() if cell[:2] == ("sequence", 1)}
        self.fixed = {
            object_of(cell): ber.Field(ber.OCTETS, bytes(it)) if isinstance(it, tuple) else text(it)
            for cell, it in cells.items()
        }

    def objects(self):
        """Returns all objects with their values."""
        shown = {group(column, 1): text(bits) for column, bits in self.signal.bits().items()}
        shown |= {group(column, 1): text(0) for column in (WALKS, WALKS - 1)} | {group(WALKS - 2, 1): text(255)}
        time = ber.Field(ber.TIME_TICKS, ber.number_content(10 * self.signal.ticks))
        pattern = FLASH if not self.signal.runs else 254
        return self.fixed | shown | {UP_TIME: time, STATUS: text(pattern), CONTROL: text(self.command)}

    def answer(self, octets):
        """Returns the reply to a message, None to octets that are none."""
        try:
            asked = snmp.message_of(octets)
        except ber.Malformed:
            return None
        status, index, binds = 0, 0, asked.bindings
        if asked.kind == snmp.SET:
            status, index = self.set(binds)
        elif asked.kind in (snmp.GET, snmp.GET_NEXT):
            found = [self.found(it.arcs, asked.kind == snmp.GET_NEXT) for it in binds]
            missing = next((at for at, it in enumerate(found, 1) if it is None), 0)
            status, index, binds = (NO_SUCH_NAME, missing, binds) if missing else (0, 0, found)
        reply = snmp.octets_of(asked._replace(kind=snmp.RESPONSE, first=status, second=index, bindings=binds))
        self.signal.step()
        return reply

    def found(self, name, is_next):
        """Returns the binding of an object, or the one after a name."""
        objects = self.objects()
        if is_next:
            order = sorted(objects)
            place = bisect.bisect_right(order, name)
            name = order[place] if place < len(order) else None
        return snmp.Binding(name, objects[name]) if name in objects else None

    def set(self, binds):
        """Takes a command; everything else is refused."""
        for at, it in enumerate(binds, 1):
            if it.arcs != CONTROL:
                return (READ_ONLY if it.arcs in self.objects() else NO_SUCH_NAME), at
        self.command = ber.number_of(binds[-1].value.content)
        self.signal.stop() if self.command == FLASH else self.signal.begin()
        return 0, 0


def main():
    """Answers until the program is ended."""
    port = socket.socket(socket.AF_INET, socket.SOCK_DGRAM)
    port.bind(("127.0.0.1", 0))
    agent = Agent()
    print(f"agent answers at 127.0.0.1:{port.getsockname()[1]}", flush=True)
    while True:
        octets, client = port.recvfrom(65_536)
        if (reply := agent.answer(octets)) is not None:
            port.sendto(reply, client)


if __name__ == "__main__":
    main()
