"""A device whose time runs by itself, with the tools of net-snmp beside the tests; a second channel for its inputs."""

import os
import pty
import re
import shutil
import socket
import subprocess
import threading

import pytest
from streettools.cabinet.messages import SET, message
from streettools.conform.channels import Datagrams, Serial, opened
from streettools.shared import oids
from streettools.shared.fault import Fault

from .conftest import Device, conform, reported

SPEED = 10
PACED = ("--as", "ntcip1202", "--speed", SPEED, "--ports", 0)
SLOWER = 4
STEADY = ("--as", "ntcip1202", "--speed", SLOWER, "--ports", 0)


class Tools(threading.Thread):
    """The tools of net-snmp, which ask and set at the same device until they are ended."""

    def __init__(self, where):
        super().__init__()
        self.where, self.is_over, self.statuses = where, threading.Event(), []

    def run(self):
        to = ["-v2c", "-c", "public", "-t", "20", self.where]
        calls = [["snmpget", *to, "1.3.6.1.2.1.1.3.0"], ["snmpbulkwalk", *to, "1.3.6.1.2.1.1"],
                 ["snmpget", *to, f"{oids.dotted(oids.CONTROL)}"]]  # fmt: skip
        while not self.is_over.wait(0.1):
            for words in calls:
                done = subprocess.run(words, capture_output=True, env=os.environ | {"MIBS": ""})
                self.statuses.append(done.returncode)

    def __enter__(self):
        self.start()
        return self

    def __exit__(self, *_):
        self.is_over.set()
        self.join()


@pytest.mark.skipif(shutil.which("snmpget") is None, reason="no net-snmp here")
@pytest.mark.parametrize("words, speed", [(PACED, SPEED), ((), "step")], ids=["by its own pace", "by messages"])
def test_the_street_passes_while_other_managers_ask_it(words, speed, tmp_path):
    """With steps the messages of others advance its time too."""
    with Device(*words) as device, Tools(device.where) as tools:
        only = ("--only", "yellow-and-red-clearance", "--only", "walk-during-green")
        report, status = reported(device.where, *only, folder=tmp_path, speed=speed)
    assert [it["outcome"] for it in report["tests"]] == ["pass", "pass"], report["tests"]
    assert status == 0 and len(tools.statuses) > 3 and set(tools.statuses) == {0}


def test_a_short_yellow_is_found_at_a_pace(tmp_path):
    """How exactly it is known depends on the polls that a busy machine lets through."""
    with Device(*STEADY, mutant="yellow-short") as device:
        report, status = reported(device.where, "--only", "yellow-and-red-clearance", folder=tmp_path, speed=SLOWER)
    (it,) = report["tests"]
    assert (it["outcome"], status) == ("differ", 2)
    assert re.match(r"phase \d (turns to|still shows) (yellow change|red clearance|red|green) at ", it["words"][0])
    for least, most in re.findall(r"its yellow change lasts (?:(\S+) to )?(\S+) s; expected 4.0 s", it["words"][0]):
        assert float(least or most) <= 3.8 <= float(most)


class Box(threading.Thread):
    """A detector box: it takes lines, and turns the inputs of a device on and off."""

    def __init__(self, port):
        super().__init__()
        self.port, self.lines, self.bits = port, [], 0
        self.socket = socket.socket(socket.AF_INET, socket.SOCK_DGRAM)
        self.socket.bind(("127.0.0.1", 0))
        self.socket.settimeout(0.1)
        self.is_over = False

    def run(self):
        while not self.is_over:
            try:
                line = self.socket.recv(100).decode()
            except TimeoutError:
                continue
            self.lines.append(line)
            kind, phase, state = line.split()
            assert kind == "veh"
            bit = 1 << int(phase) - 1
            self.bits = self.bits | bit if state == "on" else self.bits & ~bit
            with socket.socket(socket.AF_INET, socket.SOCK_DGRAM) as out:
                out.sendto(message(SET, 7, [(oids.VEH_CALL + (1,), self.bits)]), ("127.0.0.1", self.port))

    def __enter__(self):
        self.start()
        return self

    def __exit__(self, *_):
        self.is_over = True
        self.join()
        self.socket.close()


def test_calls_may_go_through_a_detector_box(tmp_path):
    with Device(*PACED) as device, Box(device.port) as box:
        channel = f"udp:127.0.0.1:{box.socket.getsockname()[1]}"
        only = ("--only", "yellow-and-red-clearance")
        report, _ = reported(device.where, *only, "--channel", channel, folder=tmp_path, speed=SPEED)
    assert box.lines == ["veh 4 on\n", "veh 4 off\n", "veh 2 on\n", "veh 2 off\n"]
    assert [it["outcome"] for it in report["tests"]] == ["pass"], report["tests"]


def test_a_serial_line_gets_a_line_for_each_change():
    master, slave = pty.openpty()
    channel = Serial(os.ttyname(slave), 9600)
    try:
        channel.vehicle(4, True)
        channel.button(2)
        channel.preempt(1, False)
        said = b""
        while len(said) < len(b"veh 4 on\nped 2\npreempt 1 off\n"):
            said += os.read(master, 100)
        assert said == b"veh 4 on\nped 2\npreempt 1 off\n"
    finally:
        channel.close()
        os.close(master)
        os.close(slave)


def test_a_maker_s_own_channel_is_a_class_in_a_file(tmp_path):
    path = tmp_path / "box.py"
    path.write_text(
        "class Box:\n    def vehicle(self, phase, on): pass\n    def button(self, phase): pass\n"
        "    def preempt(self, number, on): pass\n    def close(self): pass\n\n\n"
        "class Half:\n    def close(self): pass\n"
    )
    opened(f"{path}:Box", str).close()
    with pytest.raises(Fault, match="Half lacks one of vehicle, button, preempt, close"):
        opened(f"{path}:Half", str)
    with pytest.raises(Fault, match="None: AttributeError"):
        opened(f"{path}:None", str)


@pytest.mark.parametrize(
    "word", ["udp", "udp:1", "udp:127.0.0.1:0", "serial:", "box", "box.py", "/dev/null:9", "box.py:Box"]
)
def test_what_is_not_a_channel_is_refused(word):
    with pytest.raises(Fault):
        opened(word, lambda host: host)


def test_a_file_that_is_not_a_serial_line_is_one_line(tmp_path):
    path = tmp_path / "file"
    path.write_text("")
    with pytest.raises(Fault, match="not a serial line"):
        opened(f"serial:{path}", str)
    assert conform("127.0.0.1:1", "--channel", f"serial:{path}").stderr.count("\n") == 1


def test_a_udp_channel_sends_each_change_as_a_datagram():
    with socket.socket(socket.AF_INET, socket.SOCK_DGRAM) as box:
        box.bind(("127.0.0.1", 0))
        box.settimeout(5)
        channel = opened(f"udp:127.0.0.1:{box.getsockname()[1]}", lambda host: host)
        assert isinstance(channel, Datagrams)
        channel.preempt(3, True)
        assert box.recv(100) == b"preempt 3 on\n"
        channel.close()
