"""What people write in a sheet that TOML doesn't know, and how TOML has it."""

import re

HINTS: tuple[tuple[str, str], ...] = (
    (r"=\s*(?:2[4-9]|[3-9]\d):\d\d", "a day has 24 hours: half past midnight is 00:30:00"),
    (r"=\s*\d:\d\d(?!:|\d)", "a time of day has two digits for the hours, and its seconds too, as 07:30:00"),
    (r"=\s*\d\d?:\d\d(?!:|\d)", "a time of day has its seconds too, as 07:30:00"),
    (r"=\s*\d:\d\d:", "the hours of a time of day have two digits, as 07:30:00"),
    (r"=[^#]*[\u201c\u201d\u2018\u2019]", 'quotes are the plain ones: "'),
    (r"=\s*[\d.]+\s*%", "a sheet has seconds: write per cent of the cycle as seconds"),
    (r"=\s*[\d.]+\s*(?:sec|s|mph|km/h|ft|m)\b", "a number has no unit: times are in seconds"),
    (r"=\s*[\d.]+\s+[\w\"]+\s*=", "a comma is missing between two values"),
)
HOURS = re.compile(r"\b(?:at|clock)\s*=\s*(0\d|1\d|2[0-3])([0-5]\d)(?![\d:.])")
COMMA = re.compile(r"=\s*(\d+),(\d+)(?!\d|\s*=)")
ZERO = re.compile(r"=\s*0+(\d+)")
BARE = re.compile(r"=\s*([A-Za-z][\w-]*(?: [\w&.-]+)*)\s*(?:#|$|,|\}|\])")
TWICE = re.compile(r"Cannot (?:declare|overwrite|mutate)|Duplicate")


def value_hint(said: str) -> str:
    """Returns how to write what TOML doesn't know, from its name on; nothing if that isn't known."""
    if found := HOURS.match(said):
        return f'write "{found[1]}:{found[2]}" for a time of day'
    value = said[said.find("=") :]
    if found := COMMA.match(value):
        return f"a number has a decimal point, not a comma: write {found[1]}.{found[2]}"
    for pattern, words in HINTS:
        if re.match(pattern, value):
            return words
    if found := ZERO.match(value):
        return f"a number doesn't begin with 0: write {found[1]}"
    found = BARE.match(value)
    return f'texts are in quotes: write "{found[1]}"' if found and found[1] not in ("true", "false") else ""


def hint(line: str, column: int, message: str) -> str:
    """Returns what to do about a line that can't be read at a column from 0, by what the reader of TOML says of it;
    nothing if that isn't known."""
    if TWICE.search(message):
        return "this is in the sheet twice: keep one, or give the second a number or name of its own"
    equals = line.rfind("=", 0, column + 1)
    name = re.search(r"[\w-]*\s*$", line[: max(equals, 0)])
    return value_hint(line[name.start() if name else 0 :]) if equals >= 0 else ""
