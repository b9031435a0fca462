"""Damage to texts and messages, as a line, a disk or a hand does it: bytes changed, cut out, doubled, put in."""

TELLING = bytes([0, 1, 2, 4, 5, 6, 0x1F, 0x30, 0x7F, 0x80, 0x81, 0x82, 0x84, 0xA0, 0xA1, 0xA2, 0xA3, 0xFF])
"""Octets that mean something at many places of a message."""


def changed(draw, data):
    """Returns the data with one to three bytes changed: to any other, to a telling one, by one, or in one bit."""
    data = bytearray(data)
    for _ in range(draw.randint(1, 3)):
        at = draw.randrange(len(data))
        old = data[at]
        data[at] = draw.choice(
            [draw.randrange(256), draw.choice(TELLING), (old + 1) % 256, (old - 1) % 256, old ^ 1 << draw.randrange(8)]
        )
    return bytes(data)


def piece(draw, data):
    """Returns where a piece of the data begins and ends: mostly a short one, at times any."""
    at = draw.randrange(len(data))
    size = draw.choice([1, draw.randint(1, 8), draw.randint(1, 64), draw.randint(1, len(data))])
    return at, min(at + size, len(data))


def cut(draw, data):
    """Returns the data without its end, its beginning or a piece between."""
    at, end = piece(draw, data)
    return draw.choice([data[:at], data[end:], data[:at] + data[end:]])


def doubled(draw, data):
    """Returns the data with a piece of it twice, or put in elsewhere too."""
    at, end = piece(draw, data)
    to = draw.choice([end, draw.randrange(len(data) + 1)])
    return data[:to] + data[at:end] + data[to:]


def put_in(draw, data):
    """Returns the data with some other bytes put in."""
    at = draw.randrange(len(data) + 1)
    return data[:at] + draw.randbytes(draw.choice([1, draw.randint(1, 16)])) + data[at:]


def damaged(draw, data):
    """Returns the data with damage of one kind, at times of two."""
    kinds = [changed, changed, cut, doubled, put_in]
    for kind in draw.sample(kinds, draw.choice([1, 1, 1, 2])):
        if data:
            data = kind(draw, data)
    return data
