"""Controllers: walks over agents, live ones too, what has no place here, and downloads as commands."""

import contextlib
import json
import re
import signal
import socket
import subprocess
import threading

import pytest

from streettools.cabinet.messages import GET, GET_NEXT, field, integer, kind_of, message, name_of, reply_of, value_of
from streettools.plan import live, reading, toml_text, walk
from streettools.shared import oids
from streettools.shared.cells import differing, kinds, tables_of, value
from streettools.shared.given import Unreadable
from streettools.shared.tables import Tables

from .conftest import SECONDS, TOP, plan

ASC = ".1.3.6.1.4.1.1206.4.2.1"
WALK = f"""{ASC}.1.1.0 = INTEGER: 16
{ASC}.1.2.1.1.2 = INTEGER: 2
{ASC}.1.2.1.4.2 = INTEGER: 12
{ASC}.1.2.1.8.2 = Gauge32: 43
{ASC}.1.2.1.20.2 = INTEGER: greenNoWalk(4)
{ASC}.1.2.1.23.2 = Hex-STRING: 05 06\x20
{ASC}.1.2.1.23.9 = STRING: "\n"
{ASC}.1.2.1.4.17 = INTEGER: 9
{ASC}.2.2.1.4.3 = INTEGER: 4
{ASC}.2.2.1.6.3 = INTEGER: 25
{ASC}.3.3.0 = INTEGER: 900
{ASC}.4.2.0 = INTEGER: shortway(3)
{ASC}.4.4.0 = INTEGER: 2
{ASC}.4.9.1.3.1.3 = INTEGER: 20 seconds
{ASC}.4.14.0 = INTEGER: 1
{ASC}.6.2.1.4.1 = INTEGER: 601
{ASC}.6.2.1.13.1 = ""
{ASC}.7.3.1.3.2.1 = Hex-STRING: 02 01 03 04
{ASC}.9.2.1.2.1 = INTEGER: 1
.1.3.6.1.2.1.1.1.0 = STRING: "A controller"
"""


def test_a_walk_over_a_controller_comes_in():
    """Cells by their objects in each form that snmpwalk has, the scalars of coordination, detectors."""
    street = walk.street_of([walk.read(WALK)], ["Main & 3rd"])
    cabinet = street.scenario["cabinets"][0]
    tables = tables_of(cabinet)
    assert [tables.phase(2, column) for column in (4, 8, 20, 23)] == [12, 43, 4, (5, 6)]
    assert tables.phase(9, 23) == (10,) and tables.split(1, 3, 3) == 20 and tables.sequence(2, 1) == (2, 1, 3, 4)
    assert [tables.unit(column) for column in (1, 5, 7)] == [3, 900, 2] and cabinet["pattern"] == 1
    assert street.bank == [
        {
            "cabinet": 1, "detector": 3, "phase": 4, "delay": 3, "extend": 0, "no_activity": 0, "max_presence": 0,
            "erratic": 0,
        }
    ]  # fmt: skip


def test_objects_without_a_place_are_listed():
    """Phase 17, a delay of 601 s, an overlap, the system's name: each with its subject."""
    notes = "\n".join(walk.street_of([walk.read(WALK)], ["x"]).notes)
    for words in (
        "no place for 1 of phaseTable: 1.3.6.1.4.1.1206.4.2.1.1.2.1.4.17",
        "no place for 1 of preemptTable (out of range)",
        "no place for 1 of overlap", "no place for 1 of others: 1.3.6.1.2.1.1.1.0", "no place for 1 of maxPhases",
        "detector 3: delay of 2.5 s is rounded to 3 s, whole rounds",
    ):  # fmt: skip
        assert words in notes


def test_a_recorded_walk_of_a_cabinet_comes_in_whole():
    """`snmpwalk -On` of `./cabinet` (in two pieces, one behind the other): all cells of the scenario's second cabinet,
    nothing without a place."""
    street = walk.street_of([walk.read((TOP / "tools/tests/plan/two-cabinets-2.walk").read_text())], ["x"])
    due = Tables("std8")
    due.put(cells_of_second())
    assert not differing(tables_of(street.scenario["cabinets"][0]), due)
    assert street.notes == ["x: 2216 cells taken"]


def cells_of_second() -> list:
    """Returns the cells of the second cabinet of scenarios/two-cabinets.json."""

    return json.loads((TOP / "scenarios/two-cabinets.json").read_text())["cabinets"][1]["cells"]


def test_a_walk_of_something_else_is_refused():
    """Names in words, and a device of another kind."""
    with pytest.raises(Unreadable, match="walk with -On"):
        walk.read("ARTERIAL-PROFILE-MIB::phaseWalk.1 = INTEGER: 0\n")
    with pytest.raises(Unreadable, match="nothing of the phase, split and pattern tables"):
        walk.street_of([walk.read(".1.3.6.1.2.1.1.3.0 = INTEGER: 5\n")], ["router"])


class Fake:
    """An agent that answers GetNext over some tables, as RFC 1157 has it, for so many names at once; it loses the
    first datagram."""

    def __init__(self, tables: Tables, most: int):
        self.most = most
        objects = {oids.object_of(cell): value(tables, cell) for cell in kinds()} | {(*oids.ASC, 8, 1, 0): 3}
        self.objects = sorted((name, bytes(it) if isinstance(it, tuple) else it) for name, it in objects.items())
        self.socket = socket.socket(socket.AF_INET, socket.SOCK_DGRAM)
        self.socket.bind(("127.0.0.1", 0))
        self.lost = False
        threading.Thread(target=self.serve, daemon=True).start()

    def serve(self) -> None:
        """Answers until the socket is closed."""
        while True:
            try:
                octets, client = self.socket.recvfrom(65_536)
            except OSError:
                return
            if self.lost:
                self.socket.sendto(self.answer(octets), client)
            self.lost = True

    def answer(self, octets: bytes) -> bytes:
        """Returns the Response to a GetNext."""
        assert kind_of(octets) == GET_NEXT
        asked, pairs = reply_of(octets), b""
        if len(asked.bindings) > self.most:
            return self.response(asked.number, 1, 0, b"")
        for index, (name, _, __) in enumerate(asked.bindings, 1):
            found = next((it for it in self.objects if it[0] > name), None)
            if found is None:
                return self.response(
                    asked.number,
                    2,
                    index,
                    b"".join(field(0x30, name_of(it[0]) + value_of(None)) for it in asked.bindings),
                )
            pairs += field(0x30, name_of(found[0]) + value_of(found[1]))
        return self.response(asked.number, 0, 0, pairs)

    def response(self, number: int, status: int, index: int, pairs: bytes) -> bytes:
        """Returns a Response."""
        body = integer(number) + integer(status) + integer(index) + field(0x30, pairs)
        return field(0x30, integer(0) + field(4, b"public") + field(0xA2, body))


def test_an_agent_on_loopback_is_walked_over(monkeypatch):
    """All cells of its tables, though a datagram is lost, and no more than seven names fit into an answer."""
    monkeypatch.setattr(live, "SECONDS", 0.3)
    tables = Tables("std8")
    tables.put([["phase", 3, 8, 44], ["unit", 8, 2], ["unit", 5, 7], ["preempt", 2, 13, "0206"]])
    fake = Fake(tables, 7)
    agent = live.Agent("127.0.0.1", fake.socket.getsockname()[1], "public")
    found = walk.street_of([live.walk(agent)], ["x"])
    assert not differing(tables_of(found.scenario["cabinets"][0]), tables)
    fake.socket.close()


def test_other_machines_are_asked_only_where_that_is_said():
    """Loopback by default."""
    with pytest.raises(Unreadable, match="--anywhere"):
        live.address("192.0.2.1", anywhere=False)
    assert live.address("192.0.2.1", anywhere=True) == "192.0.2.1"


def test_an_agent_that_does_not_answer_is_told(monkeypatch):
    """Three tries, one line."""
    monkeypatch.setattr(live, "SECONDS", 0.05)
    with pytest.raises(Unreadable, match="no answer in 3 attempts"):
        live.walk(live.Agent("127.0.0.1", 9, "public"))


@contextlib.contextmanager
def cabinet(program, *words: object):
    """A live cabinet, which gives its port."""
    agent = subprocess.Popen(
        [TOP / "cabinet", "--port", "0", "--ticks-per-message", "1", "--program", program, *words],
        stderr=subprocess.PIPE, text=True,
    )
    try:
        yield int(re.search(r"127\.0\.0\.1:(\d+)", agent.stderr.readline())[1])
    finally:
        agent.send_signal(signal.SIGINT)
        agent.communicate(timeout=SECONDS)


def walked(port: int) -> Tables:
    """Returns the tables that `plan from live` finds."""
    ran = plan("from", "live", f"127.0.0.1:{port}")
    assert ran.returncode == 0, ran.stderr
    return tables_of(reading.street_of(toml_text.read(ran.stdout.decode())).scenario["cabinets"][0])


def test_a_live_cabinet_is_walked_over(program):
    """`./cabinet` with the scenario's second cabinet, asked by `plan from live`."""
    due = Tables("std8")
    due.put(cells_of_second())
    with cabinet(program, "--scenario", TOP / "scenarios/two-cabinets.json", "--cabinet", "2") as port:
        assert not differing(walked(port), due)


def test_a_download_is_sent_to_a_live_cabinet_and_read_back(program, tmp_path):
    """`plan loads --sets --send`; the cabinet then answers with the new values."""
    old, new = tmp_path / "old.json", tmp_path / "new.json"
    cells = [["phase", 2, 8, 43], ["sequence", 2, 1, "02010304"], ["sequence", 2, 2, "06050708"], ["pattern", 1, 3, 20],
             ["unit", 5, 900], ["preempt", 1, 13, "0206"], ["split", 3, 5, 4, 4]]  # fmt: skip
    old.write_text('{"version":1,"rounds":9,"ticks":10,"cabinets":[{}]}')
    new.write_text(json.dumps({"version": 1, "rounds": 9, "ticks": 10, "cabinets": [{"cells": cells}]}))
    with cabinet(program) as port:
        ran = plan("loads", old, new, "--sets", f"127.0.0.1:{port}", "--send")
        assert ran.returncode == 0, ran.stderr
        agent = live.Agent("127.0.0.1", port, "public")
        agent.socket.settimeout(SECONDS)
        agent.socket.sendto(
            message(GET, 1, [(oids.object_of(tuple(it[:-1])), None) for it in cells]), ("127.0.0.1", port)
        )
        reply = reply_of(agent.socket.recv(65_536))
    found = [content.hex() if tag == 4 else int.from_bytes(content, "big") for _, tag, content in reply.bindings]
    assert reply.status == 0 and found == [it[-1] for it in cells]
