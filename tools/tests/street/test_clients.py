"""Three cabinets of a street and clients of others: net-snmp's tools, messages that were recorded or damaged."""

import asyncio
import json
import os
import shutil
import socket
import subprocess
import threading
import time

import pytest
from streettools.cabinet.messages import reply_of

from .conftest import SECONDS, TOP, VERSION, free_ports
from .test_agents import get, written
from .test_panel import feed_of

THREE = {"version": 1, "rounds": 1, "ticks": 10, "cabinets": [{}, {"pattern": 1}, {"base": "max8"}]}
ASKS = ("get", "next", "set")


@pytest.fixture
def three(street, tmp_path):
    """A street of three cabinets whose time stands."""
    words = ("--ports", free_ports(3), "--speed", "step", "--ticks-per-message", 0)
    return street("--scenario", written(tmp_path, THREE), *words)


@pytest.fixture
def tool(three, tmp_path):
    """Runs a tool of net-snmp against a cabinet, with the names of the MIB, and returns the lines that it prints."""
    if shutil.which("snmpget") is None:
        pytest.skip("no net-snmp here")
    names = {"MIBDIRS": "mibs:mibs/base", "MIBS": "ARTERIAL-PROFILE-MIB", "SNMP_PERSISTENT_DIR": str(tmp_path)}

    def run(name, cabinet, *words):
        to = ["-v1", "-c", "public", "-Os", "-t", "20", f"127.0.0.1:{three.port + cabinet - 1}"]
        command = [name, *to, *words]
        ran = subprocess.run(
            command, cwd=TOP, env=os.environ | names, capture_output=True, text=True, timeout=4 * SECONDS
        )
        return ran.stdout.splitlines()

    return run


def test_a_set_reaches_its_cabinet_and_no_other(tool):
    told = "systemPatternControl.0 = INTEGER: {}"
    assert tool("snmpset", 1, "systemPatternControl.0", "i", "255") == [told.format(255)]
    found = [tool("snmpget", cabinet, "systemPatternControl.0") for cabinet in (1, 2, 3)]
    assert found == [[told.format(255)], [told.format(1)], [told.format(0)]]


def test_a_table_is_walked(tool):
    lines = tool("snmpwalk", 3, "phaseOptions")
    # maximum recall (128) and enabled (1) in max8; dual entry (1024) for the through phases
    assert lines[:2] == ["phaseOptions.1 = INTEGER: 129", "phaseOptions.2 = INTEGER: 1153"]
    assert len(lines) == 16


def test_a_name_without_an_object_is_told(three, tool):
    assert tool("snmpgetnext", 2, "1.3") == ["phaseNumber.1 = INTEGER: 1"]
    assert tool("snmpget", 2, "1.3.6.1.2.1.1.1.0") == []


def listed():
    """Yields each message of the corpora: its octets, and the number due in the reply; None where silence is."""
    for name in ("real", "damaged"):
        for line in (TOP / f"corpora/snmp/{name}.jsonl").read_text().splitlines():
            it = json.loads(line)
            found = it["message"]
            is_due = found and found["community"] == b"public".hex() and found["pdu"] in ASKS
            yield bytes.fromhex(it["hex"]), found["id"] if is_due else None


class Page(threading.Thread):
    """A page that looks at the panel: it counts what it is told, until the street ends."""

    def __init__(self, address: str) -> None:
        super().__init__(daemon=True)
        self.address, self.told = address, 0
        self.start()

    def run(self) -> None:
        asyncio.run(self.look())

    async def look(self) -> None:
        """Reads the news of the panel."""
        aiohttp = pytest.importorskip("aiohttp")
        feed, headers = feed_of(self.address)
        async with aiohttp.ClientSession() as session, session.ws_connect(feed, headers=headers) as news:
            async for _ in news:
                self.told += 1


def tell_all(street):
    """Sends every message of the corpora, one cabinet after the other, and counts those that are answered as is due."""
    answered = 0
    for at, (octets, number) in enumerate(listed()):
        cabinet = 1 + at % 3
        if number is None or len(octets) > 1472:
            street.send(octets, cabinet)
            continue
        assert reply_of(street.ask(octets, cabinet)).number == number, octets.hex()
        answered += 1
    street.socket.settimeout(0.5)
    assert reply_of(street.ask(get(77, VERSION), 1)).number == 77
    with pytest.raises(socket.timeout):
        street.socket.recv(65_536)
    return answered


def test_every_message_of_the_corpora_is_answered_or_met_with_silence(three):
    assert tell_all(three) > 150
    assert three.end() == 0


def test_the_corpora_change_nothing_for_a_panel_that_is_looked_at(street, tmp_path):
    words = ("--ports", free_ports(3), "--speed", "step", "--ticks-per-message", 0, "--panel", 0)
    running = street("--scenario", written(tmp_path, THREE), *words)
    page = Page(running.told(r"panel at (http://\S+)")[1])
    assert tell_all(running) > 150
    before = page.told
    until = time.monotonic() + SECONDS
    while page.told == before and time.monotonic() < until:
        time.sleep(0.1)
    assert page.told > before > 0
    assert running.end() == 0
