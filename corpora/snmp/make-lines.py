#!/usr/bin/env python3
"""Turns worked.jsonl, real.jsonl and damaged.jsonl into what message_lines reads, and what is due of it.

Usage: make-lines.py [FOLDER], where the files stdin and stdout are written (crates/message_lines by default).

The fields are those of the files, as independent decoders gave them, or worked out by hand. The files don't give the
shortest text, so it is made here from the fields alone, by the rules of ITU-T X.690; where a file says whether the
octets are the shortest text, that must agree. No output of message_lines is looked at."""

import json
import pathlib
import sys

HERE = pathlib.Path(__file__).resolve().parent
FILES = ("worked.jsonl", "real.jsonl", "damaged.jsonl")
TAGS = {"get": 0xA0, "next": 0xA1, "response": 0xA2, "set": 0xA3}


def tagged(tag, content):
    """The content under the tag and its shortest length (8.1.3)."""
    size = len(content)
    if size < 128:
        return bytes([tag, size]) + content
    octets = size.to_bytes((size.bit_length() + 7) // 8, "big")
    return bytes([tag, 128 + len(octets)]) + octets + content


def integer(number):
    """An INTEGER in as few octets as two's complement takes (8.3)."""
    size = 1
    while not -(1 << 8 * size - 1) <= number < 1 << 8 * size - 1:
        size += 1
    return tagged(2, number.to_bytes(size, "big", signed=True))


def arc(number):
    """An arc in base 128, with the high bit of each octet but the last set (8.19.2)."""
    octets = [number % 128]
    while number := number // 128:
        octets.insert(0, 128 + number % 128)
    return bytes(octets)


def name(arcs):
    """An OBJECT IDENTIFIER, its first two arcs in one (8.19.4)."""
    return tagged(6, b"".join(map(arc, [40 * arcs[0] + arcs[1], *arcs[2:]])))


def value(kind, content=None):
    """A value of a binding."""
    match kind:
        case "int":
            return integer(content)
        case "octets":
            return tagged(4, bytes.fromhex(content))
        case "null":
            return tagged(5, b"")
        case "oid":
            return name(content)
    raise ValueError(kind)


def shortest(message):
    """The shortest text of a message (RFC 1157, 4)."""
    binds = b"".join(tagged(0x30, name(arcs) + value(*held)) for arcs, held in message["binds"])
    numbers = b"".join(integer(message[field]) for field in ("id", "status", "index"))
    pdu = tagged(TAGS[message["pdu"]], numbers + tagged(0x30, binds))
    return tagged(0x30, integer(0) + tagged(4, bytes.fromhex(message["community"])) + pdu)


def dotted(arcs):
    return ".".join(map(str, arcs))


def value_word(kind, content=None):
    match kind:
        case "null":
            return "null"
        case "oid":
            return f"name:{dotted(content)}"
    return f"{kind}:{content}"


def line(record):
    """The line that the program must write for the record's octets."""
    message = record["message"]
    if message is None:
        return "none"
    text = shortest(message).hex()
    if "shortest" in record and record["shortest"] != (text == record["hex"]):
        raise ValueError(f"not the shortest text as recorded: {record['hex']}")
    fields = [message["community"], message["pdu"], *(str(message[field]) for field in ("id", "status", "index"))]
    binds = [f"{dotted(arcs)}={value_word(*held)}" for arcs, held in message["binds"]]
    return " ".join([text, *fields, *binds])


def main():
    folder = pathlib.Path(sys.argv[1]) if len(sys.argv) > 1 else HERE.parent.parent / "crates" / "message_lines"
    records = [json.loads(text) for file in FILES for text in (HERE / file).read_text().splitlines()]
    (folder / "stdin").write_text("".join(f"{record['hex']}\n" for record in records))
    (folder / "stdout").write_text("".join(f"{line(record)}\n" for record in records))


main()
