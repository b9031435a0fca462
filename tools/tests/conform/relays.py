"""A relay between `arterial conform` and a device, which makes the device worse than it is."""

import select
import socket
import threading
import time

from streettools.shared import ber, oids, snmp
from streettools.shared.snmp import GET, SET

UP_TIME = oids.SYSTEM + (3, 0)


class Relay:
    """A port in front of a device. `change` is given the number of a request, the request and the reply, both as
    messages, and returns the octets that are sent back, each after some seconds. The requests are kept."""

    def __init__(self, port, change=None, answers=True):
        self.change = change or (lambda number, asked, reply: [(0, snmp.octets_of(reply))])
        self.answers = answers
        self.inside = socket.socket(socket.AF_INET, socket.SOCK_DGRAM)
        self.inside.connect(("127.0.0.1", port))
        self.outside = socket.socket(socket.AF_INET, socket.SOCK_DGRAM)
        self.outside.bind(("127.0.0.1", 0))
        self.where = f"127.0.0.1:{self.outside.getsockname()[1]}"
        self.asked, self.clients, self.is_over = [], {}, False
        self.thread = threading.Thread(target=self.run)

    def __enter__(self):
        self.thread.start()
        return self

    def __exit__(self, *_):
        self.is_over = True
        self.thread.join()
        self.inside.close()
        self.outside.close()

    def run(self):
        """Passes messages on until the relay ends."""
        while not self.is_over:
            for ready in select.select([self.inside, self.outside], [], [], 0.05)[0]:
                if ready is self.outside:
                    octets, client = ready.recvfrom(65_536)
                    self.forward(octets, client)
                else:
                    self.back(ready.recv(65_536))

    def forward(self, octets, client):
        """Passes a request on, if the device answers."""
        try:
            asked = snmp.message_of(octets)
        except ber.Malformed:
            self.inside.send(octets)
            return
        self.asked.append(asked)
        self.clients[asked.number] = (asked, client, len(self.asked))
        if self.answers:
            self.inside.send(octets)

    def back(self, octets):
        """Passes a reply back, as `change` makes it."""
        reply = snmp.message_of(octets)
        asked, client, number = self.clients[reply.number]
        for seconds, changed in self.change(number, asked, reply):
            if seconds:
                threading.Thread(target=self.later, args=(seconds, changed, client)).start()
            else:
                self.outside.sendto(changed, client)

    def later(self, seconds, octets, client):
        """Sends octets after some seconds."""
        time.sleep(seconds)
        if not self.is_over:
            self.outside.sendto(octets, client)

    def sets(self):
        """Returns the bindings of the Sets that came, as names and numbers."""
        return [
            (it.arcs, ber.number_of(it.value.content) if it.value.tag == ber.INTEGER else it.value.content)
            for asked in self.asked
            if asked.kind == SET
            for it in asked.bindings
        ]


def with_value(message, name, change):
    """Returns a message in which the value of a name is changed by a function of its number."""
    binds = []
    for it in message.bindings:
        if it.arcs == name:
            number = change(int.from_bytes(it.value.content, "big", signed=True))
            it = it._replace(value=ber.Field(it.value.tag, ber.number_content(number)))
        binds.append(it)
    return message._replace(bindings=binds)


def as_it_is(reply):
    """Returns a reply that is sent back at once."""
    return [(0, snmp.octets_of(reply))]


def is_poll(asked):
    """Tells whether a message is a poll of the display."""
    return asked.kind == GET and any(it.arcs[:-2] == oids.STATUS_GROUP for it in asked.bindings)
