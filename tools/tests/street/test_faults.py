"""A street whose record can't be written, whose hearer fails, or whose record isn't one: one line, and nothing lost."""

import asyncio
import json
import subprocess
import sys

import pytest
from streettools.shared.fault import Fault
from streettools.street.pace import Pace
from streettools.street.record import Recorder, Requests
from streettools.street.street import Hearer, Street

from .conftest import PROGRAM, SECONDS, TOP
from .test_agents import refused
from .test_record import checked, set_clock


class Failing(Hearer):
    """A hearer that fails in the end."""

    called = "the hearer of this test"

    def __init__(self, fault, answers=40):
        self.fault, self.left = fault, answers

    def heard(self, request, answer):
        self.left -= 1
        if not self.left:
            raise self.fault


async def lived(street):
    """Lets a street live to its end."""
    await street.open()
    try:
        await asyncio.wait_for(street.live(), SECONDS)
    finally:
        await street.close()


@pytest.mark.parametrize("fault, line", [
    (ValueError("odd"), "the hearer of this test failed: ValueError: odd"),
    (OSError(28, "No space left on device", "kept"), "[Errno 28] No space left on device: 'kept'"),
])  # fmt: skip
def test_a_hearer_that_fails_ends_the_street_and_the_record_is_whole(tmp_path, fault, line):
    scenario = {"version": 1, "rounds": 1, "ticks": 5, "cabinets": [{}]}
    hearers = [Recorder(tmp_path / "kept.trace"), Failing(fault)]
    street = Street(str(PROGRAM), scenario, Pace(50), hearers)
    with pytest.raises((Fault, OSError)) as raised:
        asyncio.run(lived(street))
    assert str(raised.value) == line
    assert checked(tmp_path / "kept.trace") == (0, b"")


def test_a_street_that_is_failed_from_outside_ends_with_that_fault():
    street = Street(str(PROGRAM), {"version": 1, "rounds": 1, "ticks": 5, "cabinets": [{}]}, Pace(1), [])

    async def failed():
        asyncio.get_running_loop().call_later(0.5, street.fail, Fault("the panel failed"))
        await lived(street)

    with pytest.raises(Fault, match="the panel failed"):
        asyncio.run(failed())


def test_a_panel_that_fails_ends_the_street_in_one_line():
    """Its task that makes news fails as soon as a page is open."""
    aiohttp = pytest.importorskip("aiohttp")
    from streettools.street import ports
    from streettools.street.panel.panel import Panel
    from streettools.street.panel.state import PanelState
    from streettools.street.panel.web import Server

    class Broken(PanelState):
        async def put_in_words(self):
            raise KeyError("odd")

    async def failed():
        state = Broken()
        panel = Panel(state)
        scenario = {"version": 1, "rounds": 1, "ticks": 5, "cabinets": [{}]}
        street = Street(str(PROGRAM), scenario, Pace(1), [state, panel])
        server = Server(panel, ("127.0.0.1",))
        await street.open()
        with ports.page_port(ports.Place("127.0.0.1", 0)) as port:
            await server.open(port)
            panel.begin(street)
            base, token = server.address(ports.place_of(port)).split("?")
            async with aiohttp.ClientSession() as session:
                async with session.ws_connect(f"{base}feed?{token}", headers={"Origin": base.rstrip("/")}):
                    try:
                        await asyncio.wait_for(street.live(), SECONDS)
                    finally:
                        await street.close()
                        await panel.end("over")
                        await server.close()

    with pytest.raises(Fault) as raised:
        asyncio.run(failed())
    assert str(raised.value) == "the panel failed: KeyError: 'odd'"


def test_a_record_that_can_grow_no_longer_ends_the_street_with_its_name(tmp_path):
    """With files of at most 16 KiB; each Set has about 100 octets in the record."""
    record = tmp_path / "kept.trace"
    words = ["-c", 'ulimit -f 16; exec "$@"', "bash", sys.executable, "-B", TOP / "tools/streettools", "street",
             "--program", PROGRAM, "--ports", "0", "--speed", "1000", "--record", record]  # fmt: skip
    ran = subprocess.run(["/bin/bash", *words], capture_output=True, text=True, cwd=TOP, timeout=SECONDS)
    assert ran.returncode == 1
    assert ran.stderr.splitlines()[-1].startswith(f"street: {tmp_path}/kept.") and "File too large" in ran.stderr
    requests = (tmp_path / "kept.dialogue").read_bytes()
    assert 1000 < len(requests) <= 16 * 1024 and requests.endswith(b"\n")
    again = subprocess.run([PROGRAM, "live"], input=requests, capture_output=True)
    assert again.returncode == 0 and b"\n? " not in again.stdout


def test_lines_that_cant_be_written_whole_are_taken_back(tmp_path):
    requests = Requests(tmp_path / "kept.dialogue")
    requests.add(b"{}")
    requests.add(b"tick 1")
    requests.add(set_clock(1, 5))
    requests.close()
    assert (tmp_path / "kept.dialogue").read_bytes() == b"{}\ntick 1\n" + set_clock(1, 5) + b"\n"


def test_a_record_follows_no_link(tmp_path):
    (tmp_path / "kept.dialogue").symlink_to(tmp_path / "elsewhere")
    Requests(tmp_path / "kept.dialogue").close()
    assert not (tmp_path / "elsewhere").exists() and not (tmp_path / "kept.dialogue").is_symlink()


def test_a_record_is_not_written_over_its_own_requests(tmp_path):
    (tmp_path / "kept.dialogue").write_text("mine")
    status, line = refused("--record", tmp_path / "kept.dialogue")
    assert status == 2 and line.endswith("a record has the name of its trace; its requests get the ending .dialogue")
    assert (tmp_path / "kept.dialogue").read_text() == "mine"


SCENARIO = json.dumps({"version": 1, "rounds": 1, "ticks": 5, "cabinets": [{}]})


@pytest.mark.parametrize("text, line", [
    ("", "scenario: not JSON"), ("[]\n", "scenario:"), ("{}\n", "scenario:"), ("nonsense\n", "scenario: not JSON"),
    (f"{SCENARIO}\ntick x\n", "line 2 is not a request"), (f"{SCENARIO}\ntick 1\ntick\n", "line 3 is not a request"),
    (f"{SCENARIO}\ntick {'9' * 5000}\n", "line 2 is not a request"),
])  # fmt: skip
@pytest.mark.parametrize("word", ["--resume", "--replay"])
def test_what_is_no_record_is_refused_in_a_line(tmp_path, word, text, line):
    (tmp_path / "bad.dialogue").write_text(text)
    status, said = refused(word, tmp_path / "bad.dialogue")
    assert status == 2 and line in said
