"""What the tests share: a program that has `live`, a street that answers at free ports, and messages to send to it.

Where no program is named the built one is taken if it has `live`, else the model, which has the same form.
"""

import os
import pathlib
import signal
import socket
import subprocess
import sys

import pytest
from streettools.shared.oids import CLOCK, CONTROL, COUNTER_OF_CYCLE as COUNTER, VERSION  # noqa: F401

from ..hearing import SECONDS, Heard

TOP = pathlib.Path(__file__).resolve().parents[3]
sys.dont_write_bytecode = True
sys.path += [str(TOP), str(TOP / "tools")]


def has_live(program):
    """Tells whether a program has the word `live`."""
    text = b'{"version":1,"rounds":1,"ticks":1,"cabinets":[{}]}\n'
    return program.is_file() and subprocess.run([program, "live"], input=text, capture_output=True).returncode == 0


def program_here():
    """Returns the program that the tests are about."""
    named = pathlib.Path(os.environ.get("ARTERIAL_PROGRAM", TOP / "crates/arterial/out/arterial"))
    return named if has_live(named) else TOP / "model/program"


PROGRAM = program_here()
IS_MODEL = PROGRAM == TOP / "model/program"


class Running(Heard):
    """A street that runs, and the software that talks with it."""

    def __init__(self, words, env=None):
        command = [sys.executable, "-B", TOP / "tools/streettools", "street", "--program", PROGRAM, *map(str, words)]
        self.street = subprocess.Popen(command, stderr=subprocess.PIPE, text=True, cwd=TOP, env=env)
        self.hear(self.street)
        self.port = int(self.told(r"answers? at \S+:(\d+)")[1])
        self.socket = socket.socket(socket.AF_INET, socket.SOCK_DGRAM)
        self.socket.settimeout(SECONDS)

    def send(self, octets, cabinet=1):
        """Sends a datagram."""
        self.socket.sendto(octets, ("127.0.0.1", self.port + cabinet - 1))

    def ask(self, octets, cabinet=1):
        """Sends a datagram and returns the reply."""
        self.send(octets, cabinet)
        return self.socket.recv(65_536)

    def end(self, number=signal.SIGINT):
        """Ends the street, and returns its exit status."""
        self.street.send_signal(number)
        return self.ended()

    def ended(self):
        """Waits until the street ends, and returns its exit status."""
        status = self.street.wait(SECONDS)
        self.reader.join(SECONDS)
        self.street.stderr.close()
        return status


@pytest.fixture
def street():
    """Starts streets, with the words given to each."""
    made = []

    def start(*words):
        made.append(Running(words))
        return made[-1]

    yield start
    for it in made:
        it.socket.close()
        if it.street.poll() is None:
            it.street.kill()
            it.ended()


def free_ports(count):
    """Returns the first of so many ports that are free one behind the other."""
    for first in range(20_000 + os.getpid() % 5000, 60_000, count):
        held = []
        try:
            for port in range(first, first + count):
                held.append(socket.socket(socket.AF_INET, socket.SOCK_DGRAM))
                held[-1].bind(("127.0.0.1", port))
            return first
        except OSError:
            continue
        finally:
            for it in held:
                it.close()
    raise AssertionError("no ports are free")
