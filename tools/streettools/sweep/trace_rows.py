"""Reads the trace of a run fast: frames, ends of downloads and notes, block after block, so that memory stays flat.

It reads what the program itself has written just now. Other traces are read by `shared.trace_reader`.
"""

import re
from collections.abc import Iterator
from typing import BinaryIO, NamedTuple

from ..shared import lines
from ..shared.trace_records import Frame, Load, Note, Round

BLOCK = 1 << 20
"""How many bytes are read at once."""
NUMBER = rb"(0|[1-9][0-9]{0,8})"
LAST = rb"(?![^\n])"
FRAME = rb"\nF %s %s ([GYCR]{16}) ([WFD]{16}) ([A-Z0-9a-z]+) %s %s %s" % ((NUMBER,) * 5)
FRAMES = re.compile(FRAME + LAST)
ROWS = re.compile(rb"(?:%s|\n([RLM][^\n]*))" % FRAME + LAST)
"""Frames, and the lines of rounds, ends of downloads and notes. J lines have nothing new here, and A lines repeat what
was asked."""

Row = tuple[bytes, bytes, bytes, bytes, bytes, bytes, bytes, bytes]
"""A frame as it is written: cabinet, tick, colours, pedestrian signals, mode, counter, target, version."""


class Said(NamedTuple):
    """A note of the master in a round."""

    cabinet: int
    round: int
    words: str


class Over(NamedTuple):
    """The end of a download in a round."""

    cabinet: int
    round: int
    load: Load


def frame_of(row: Row) -> Frame:
    """Returns a frame that was read; raises ValueError if its mode isn't valid."""
    cabinet, tick, vehicles, pedestrians, mode, counter, target, version = row
    return Frame(
        int(cabinet),
        int(tick),
        vehicles.decode("ascii"),
        pedestrians.decode("ascii"),
        lines.mode(mode),
        int(counter),
        int(target),
        int(version),
    )


def blocks(stream: BinaryIO) -> Iterator[bytes]:
    """Yields a trace after its first line: each block begins with the end of a line, and ends before one."""
    rest = b""
    while part := stream.read(BLOCK):
        if not rest:
            at = part.find(b"\n")
            if at < 0:
                continue
            part = part[at:]
        text = rest + part
        end = text.rfind(b"\n")
        yield text[:end]
        rest = text[end:]
    yield rest


def happenings(stream: BinaryIO) -> Iterator[Row | Said | Over]:
    """Yields what happened, in the order of the trace; raises ValueError if a line isn't one of a trace."""
    number = 0
    for block in blocks(stream):
        if b"\nL" in block or b"\nM" in block:
            yield from with_notes(block, number)
        else:
            found = FRAMES.findall(block)
            if len(found) != block.count(b"\nF"):
                raise ValueError
            yield from found
        at = block.rfind(b"\nR")
        if at >= 0:
            number = round_at(block, at)


def round_at(block: bytes, at: int) -> int:
    """Returns the number of the round whose line is at a place."""
    end = block.find(b"\n", at + 1)
    return lines.round_of((block[at + 1 :] if end < 0 else block[at + 1 : end]) + b"\n").number


def with_notes(block: bytes, number: int) -> Iterator[Row | Said | Over]:
    """Yields what happened in a block that has ends of downloads or notes; its first lines are of this round."""
    found = ROWS.findall(block)
    if sum(not it[8] for it in found) != block.count(b"\nF"):
        raise ValueError
    for row in found:
        if not row[8]:
            yield row[:8]
            continue
        record = lines.record(row[8] + b"\n")
        if isinstance(record, Round):
            number = record.number
        elif isinstance(record, Load):
            yield Over(record.cabinet, number, record)
        elif isinstance(record, Note):
            yield Said(record.cabinet, number, record.words)
