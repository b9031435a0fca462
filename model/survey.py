"""What a run of a generated scenario comes to, in seven lines.

docs/SCENARIO.md, "A scenario that is generated"; docs/TRACE.md, "Looking for lines".
"""

from collections import Counter
from collections.abc import Iterator

from model.run import trace_lines
from model.scenario import Scenario


def kind_of(line: bytes) -> bytes:
    """Returns as what a line of a trace is counted."""
    words = line.split(b" ")
    if words[0] == b"F":
        return b"frames"
    if words[0] == b"A" and words[3] != b"-":
        return b"replies"
    return words[3] if words[0] == b"L" else b""


def survey_lines(scenario: Scenario) -> Iterator[bytes]:
    """Yields the lines of the summary."""
    counted = Counter(map(kind_of, trace_lines(scenario)))
    cabinets = len(scenario.cabinets)
    yield b"cabinets %d" % cabinets
    yield b"rounds %d" % scenario.rounds
    yield b"ticks %d" % (cabinets * scenario.rounds * scenario.ticks)
    for name in (b"frames", b"replies", b"accepted", b"refused"):
        yield b"%s %d" % (name, counted[name])
