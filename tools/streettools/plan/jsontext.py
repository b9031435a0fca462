"""The text of a scenario as JSON (RFC 8259): where it can't be read, with what was expected there; and the place of a
value."""

import json
import math
import re
from dataclasses import dataclass

DEEPEST = 127
LONE = re.compile(
    r"\\u[dD][89abAB][0-9a-fA-F]{2}(?!\\u[dD][c-fC-F][0-9a-fA-F]{2})"
    r"|(?<!\\u[dD][89abAB]..)\\u[dD][c-fC-F][0-9a-fA-F]{2}"
)
EXPECTED = {
    "Expecting value": "a value was expected: a number, a text in double quotes, true, false, null, a list "
    "or an object",
    "Expecting property name enclosed in double quotes": "a name in double quotes was expected",
    "Expecting ',' delimiter": "a comma was expected, or the end of the list or object",
    "Expecting ':' delimiter": "a colon was expected after the name",
    "Extra data": "the text was expected to end here, after its value",
    "Unterminated string starting at": "a text begins here, and its closing quote was expected",
    "Invalid control character at": "a text doesn't end in its line, or has a character that must be "
    "escaped",
    "Invalid \\escape": "an escape was expected, as \\n or \\u00e9",
    "Invalid \\uXXXX escape": "four hexadecimal digits were expected",
}
HINTS = (
    (re.compile(r","), re.compile(r"[\]}]"), "the comma before it is one too many"),
    (re.compile(r""), re.compile(r"'"), "texts are in double quotes"),
    (re.compile(r""), re.compile(r"//|/\*|#"), "JSON has no comments"),
    (re.compile(r""), re.compile(r"[+.]"), "numbers begin with a digit or -"),
    (re.compile(r"[0-9]"), re.compile(r"[0-9]"), "numbers have no leading zeros"),
    (re.compile(r""), re.compile(r"NaN|Infinity|-Infinity"), "JSON has no such number"),
    (re.compile(r""), re.compile(r"True|False|None"), "JSON has true, false and null"),
    (re.compile(r""), re.compile(r"[A-Za-z_]"), "texts and names are in double quotes"),
)
"""The text before a fault and at it, and what that means."""


@dataclass(frozen=True)
class Place:
    """A line and a column, both from 1."""

    line: int
    column: int

    def __str__(self) -> str:
        return f"line {self.line}, column {self.column}"


class NoJson(Exception):
    """A text isn't valid JSON: where, and what was expected there."""

    def __init__(self, place: Place, words: str):
        super().__init__(f"{place}: {words}")
        self.place, self.words = place, words


def place_at(text: str, at: int) -> Place:
    """Returns the line and the column of a place in a text."""
    return Place(text.count("\n", 0, at) + 1, at - text.rfind("\n", 0, at))


def decoded(content: bytes, replaced: bool = False) -> str:
    """Returns the text of some bytes, which must be UTF-8; if bytes may be `replaced`, invalid ones are read as Latin
    letters."""
    if replaced:
        try:
            return content.decode()
        except UnicodeDecodeError:
            return content.decode("latin-1")
    try:
        text = content.decode()
    except UnicodeDecodeError as fault:
        front = content[: fault.start].decode()
        raise NoJson(place_at(front, len(front)), f"the byte {content[fault.start]:02x} is not UTF-8") from None
    if text.startswith("\ufeff"):
        raise NoJson(Place(1, 1), "a byte order mark precedes the text: save the file without it")
    return text


def whole(digits: str) -> int | float:
    """Returns a number without a point; it isn't a whole number if 64 bits don't hold it, or if it is -0."""
    if digits != "-0" and len(digits) <= 20 and -(2**63) <= int(digits) < 2**64:
        return int(digits)
    return float(digits) if len(digits) < 300 else math.inf


def read(content: bytes) -> object:
    """Returns the value of a text; raises NoJson if it has none."""
    text = decoded(content)
    try:
        refuse_depth(text)
        value = json.loads(text, parse_int=whole, parse_constant=lambda name: refuse_constant(text, name))
    except json.JSONDecodeError as fault:
        raise NoJson(place_at(text, fault.pos), expected(text, fault)) from None
    for found in LONE.finditer(text):
        if not text[: found.start()].endswith("\\") and not in_escape(text, found.start()):
            raise NoJson(place_at(text, found.start()), "half a character: such escapes come in pairs")
    refuse_infinite(text, value)
    return value


def in_escape(text: str, at: int) -> bool:
    """Tells whether a backslash is itself escaped."""
    count = 0
    while at > count and text[at - count - 1] == "\\":
        count += 1
    return count % 2 == 1


def expected(text: str, fault: json.JSONDecodeError) -> str:
    """Returns what was expected, and what may have been meant."""
    words = EXPECTED.get(fault.msg, fault.msg[:1].lower() + fault.msg[1:])
    behind, front = text[fault.pos : fault.pos + 20], text[: fault.pos].rstrip()
    if not behind.strip():
        return words + ", but the text ends"
    for before, at, hint in HINTS:
        if at.match(behind) and (not before.pattern or before.search(front[-1:])):
            return f"{words}: {hint}"
    return f"{words}, found {behind.split()[0][:20]!r}"


def refuse_constant(text: str, name: str) -> None:
    """Refuses NaN and the infinities."""
    raise NoJson(place_at(text, text.find(name)), f"{name}: JSON has no such number")


def refuse_depth(text: str) -> None:
    """Refuses lists and objects that are nested too deep."""
    depth = 0
    for found in re.finditer(r'"(?:[^"\\]|\\.)*"|[\[{]|[\]}]', text):
        mark = found[0]
        depth += (mark in "[{") - (mark in "]}")
        if depth > DEEPEST:
            raise NoJson(place_at(text, found.start()), f"lists and objects are nested more than {DEEPEST} deep")


def refuse_infinite(text: str, value: object) -> None:
    """Refuses numbers that are too great for any machine."""
    waiting = [value]
    while waiting:
        it = waiting.pop()
        if isinstance(it, float) and math.isinf(it):
            great = re.search(r"-?\d+(?:\.\d+)?[eE]\+?\d{3,}|-?\d{300,}", text)
            raise NoJson(place_at(text, great.start() if great else 0), "a number that is too large")
        waiting += it.values() if isinstance(it, dict) else it if isinstance(it, list) else ()


def steps(path: str) -> list[str | int]:
    """Returns the names and places of a path, as cabinets[0].cells[3]."""
    found = re.findall(r"\[(\d+)\]|([^.\[\]]+)", path)
    return [int(place) if place else name for place, name in found]


def space(text: str, at: int) -> int:
    """Returns the place after white space."""
    while at < len(text) and text[at] in " \t\r\n":
        at += 1
    return at


def place_of(text: str, path: str) -> Place:
    """Returns where the value of a path is in a text that is JSON; if a part of the path isn't there, where the part
    before it is."""
    decoder, at = json.JSONDecoder(), space(text, 0)
    for step in [] if path == "." else steps(path):
        below = member(decoder, text, at, step) if isinstance(step, str) else item(decoder, text, at, step)
        if below is None:
            break
        at = below
    return place_at(text, at)


def member(decoder: json.JSONDecoder, text: str, at: int, name: str) -> int | None:
    """Returns where the value of a name is in the object at a place: the last of that name."""
    if text[at] != "{":
        return None
    found, at = None, space(text, at + 1)
    while text[at] != "}":
        key, at = decoder.raw_decode(text, at)
        at = space(text, space(text, at) + 1)
        found = at if key == name else found
        at = space(text, decoder.raw_decode(text, at)[1])
        at = space(text, at + 1) if text[at] == "," else at
    return found


def item(decoder: json.JSONDecoder, text: str, at: int, number: int) -> int | None:
    """Returns where an item of the list at a place is."""
    if text[at] != "[":
        return None
    at = space(text, at + 1)
    for _ in range(number):
        if text[at] == "]":
            return None
        at = space(text, decoder.raw_decode(text, at)[1])
        at = space(text, at + 1) if text[at] == "," else at
    return None if text[at] == "]" else at
