"""The lines of a trace, written; and which bytes are a line.

docs/TRACE.md. Numbers are decimal without leading zeros. A rule, a pattern and the number of a mode are below 2^8,
rows below 2^16, the other numbers below 2^32; the status and index of a refused download are numbers of 32 bits with
a sign.
"""

import re

from model.rules import Broken
from model.words import Frame


def frame_line(cabinet: int, number: int, frame: Frame) -> bytes:
    """Returns an F line."""
    counts = f"{frame.mode} {frame.counter} {frame.target} {frame.version}"
    return f"F {cabinet} {number} {frame.lights.text} {frame.signals.text} {counts}".encode()


def accepted_line(cabinet: int, load: int, version: int) -> bytes:
    """Returns the L line of a download that came into force."""
    return f"L {cabinet} {load} accepted {version}".encode()


def refused_line(cabinet: int, load: int, broken: Broken) -> bytes:
    """Returns the L line of a download whose tables break a rule."""
    return f"L {cabinet} {load} refused {broken.rule} {broken.row}".encode()


def reply_line(cabinet: int, stream: int, reply: bytes | None) -> bytes:
    """Returns the A line of a frame that was answered or ignored."""
    return f"A {cabinet} {stream} {'-' if reply is None else reply.hex()}".encode()


def journal_line(cabinet: int, runs: list[tuple[int, int]]) -> bytes:
    """Returns the J line of a journal in runs of a pass and a number."""
    return f"J {cabinet} {' '.join(f'{stream}*{count}' for stream, count in runs)}".encode()


NUMBER = rb"(?:0|[1-9][0-9]{0,9})"
COUNT = rb"(?P<%b>" + NUMBER + rb")"
MODE = rb"(?:[SFEX]|[KC]" + COUNT % b"b0" + rb"|P" + COUNT % b"b1" + rb"[etdx])"
NOTE = (
    rb"(?:fail|good|pattern "
    + COUNT % b"b0"
    + rb"|load "
    + COUNT % b"n1"
    + rb" (?:done|refused "
    + rb"(?P<s0>-?"
    + NUMBER
    + rb") (?P<s1>-?"
    + NUMBER
    + rb")))"
)
GRAMMARS = {
    ord("S"): rb"S [^\n]*",
    ord("F"): rb"F "
    + COUNT % b"n0"
    + rb" "
    + COUNT % b"n1"
    + rb" [GYCR]{16} [WFD]{16} "
    + MODE
    + b"".join(b" " + COUNT % it for it in (b"n2", b"n3", b"n4")),
    ord("R"): rb"R " + COUNT % b"n0",
    ord("M"): rb"M " + COUNT % b"n0" + rb" " + NOTE,
    ord("J"): rb"J " + COUNT % b"n0" + rb"(?P<runs>(?: " + NUMBER + rb"\*" + NUMBER + rb")+)",
    ord("L"): rb"L "
    + COUNT % b"n0"
    + rb" "
    + COUNT % b"n1"
    + rb" (?:accepted "
    + COUNT % b"n2"
    + rb"|refused "
    + COUNT % b"b0"
    + rb" "
    + COUNT % b"w0"
    + rb")",
    ord("A"): rb"A " + COUNT % b"n0" + rb" " + COUNT % b"n1" + rb" (?:-|(?P<hex>(?:[0-9a-f]{2}){1,1472}))",
    ord("Z"): rb"Z " + COUNT % b"n0",
}
PATTERNS = {kind: re.compile(grammar, re.DOTALL) for kind, grammar in GRAMMARS.items()}
BOUNDS = {"b": 1 << 8, "w": 1 << 16, "n": 1 << 32}


def fits(name: str, text: bytes) -> bool:
    """Tells whether a number of a line fits its type, which the first letter of its name tells."""
    if name[0] == "s":
        return -(1 << 31) <= int(text) < 1 << 31 and text != b"-0"
    return name in ("runs", "hex") or int(text) < BOUNDS[name[0]]


def runs_of(line: bytes) -> list[tuple[int, int]]:
    """Returns the runs of a J line."""
    return [tuple(map(int, run.split(b"*"))) for run in line.split(b" ")[2:]]


def are_longest(runs: list[tuple[int, int]]) -> bool:
    """Tells whether runs are those of a J line: none is empty, and no two neighbours are of one pass."""
    if any(count == 0 or count >= 1 << 32 or stream >= 1 << 32 for stream, count in runs):
        return False
    return all(one[0] != two[0] for one, two in zip(runs, runs[1:]))


def is_line(line: bytes) -> bool:
    """Tells whether bytes, without a newline, are a line of a trace."""
    pattern = PATTERNS.get(line[0]) if line else None
    found = pattern.fullmatch(line) if pattern else None
    if found is None or not all(fits(name, text) for name, text in found.groupdict().items() if text is not None):
        return False
    return line[:1] != b"J" or are_longest(runs_of(line))


def head(line: bytes) -> list[bytes]:
    """Returns what must be equal if two lines differ only in their fields: the kind, and the cabinet or the number of a
    round."""
    return line.split(b" ", 2)[:2]
