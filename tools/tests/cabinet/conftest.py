"""What the tests share: the built program, an agent that answers at a free port, and messages to send to it."""

import os
import pathlib
import re
import signal
import socket
import subprocess
import sys

import pytest
from streettools.shared.oids import CLOCK, CONTROL, VERSION  # noqa: F401

TOP = pathlib.Path(__file__).resolve().parents[3]
sys.dont_write_bytecode = True

MODEL = TOP / "model/program"
SECONDS = 60
"""How long anything may take."""


def program_here():
    """Returns the program that is named, else the one that was built; the model, which has the same form, where that
    has no `live`."""
    program = pathlib.Path(os.environ.get("ARTERIAL_PROGRAM", TOP / "crates/arterial/out/arterial"))
    text = b'{"version":1,"rounds":1,"ticks":1,"cabinets":[{}]}\n'
    has_live = program.is_file() and subprocess.run([program, "live"], input=text, capture_output=True).returncode == 0
    return program if has_live else MODEL


PROGRAM = program_here()



class Client:
    """An agent that runs, and the software that talks with it."""

    def __init__(self, words):
        self.agent = subprocess.Popen(
            [TOP / "cabinet", "--port", "0", "--program", PROGRAM, *map(str, words)], stderr=subprocess.PIPE, text=True
        )
        self.said = self.agent.stderr.readline()
        found = re.search(r"127\.0\.0\.1:(\d+)", self.said)
        self.port = int(found[1]) if found else None
        self.socket = socket.socket(socket.AF_INET, socket.SOCK_DGRAM)
        self.socket.settimeout(SECONDS)

    def send(self, octets):
        """Sends a datagram."""
        self.socket.sendto(octets, ("127.0.0.1", self.port))

    def ask(self, octets):
        """Sends a datagram and returns the reply."""
        self.send(octets)
        return self.socket.recv(65_536)

    def end(self, number=signal.SIGINT):
        """Ends the agent, and returns its exit status and what else it said."""
        self.agent.send_signal(number)
        return self.ended()

    def ended(self):
        """Waits until the agent ends, and returns its exit status and what else it said."""
        said = self.agent.communicate(timeout=SECONDS)[1]
        return self.agent.returncode, said


@pytest.fixture
def program():
    """The built program; a test is skipped where there is none."""
    if not PROGRAM.is_file():
        pytest.skip(f"no program at {PROGRAM}")
    return PROGRAM


@pytest.fixture
def client(program):
    """Starts agents, with the words given to each."""
    clients = []

    def start(*words):
        clients.append(Client(words))
        return clients[-1]

    yield start
    for it in clients:
        it.socket.close()
        if it.agent.poll() is None:
            it.agent.kill()
        it.agent.communicate()
