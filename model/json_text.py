"""JSON texts: how they are read, and the compact text of a value.

RFC 8259; docs/SCENARIO.md, "What is refused, and how". A number is whole if it is written without fraction and
exponent, isn't `-0` and has at most 64 bits; every other number is of another kind. Lists and objects may be 127 deep.
Of duplicate names the last counts.
"""

import json
import math
from typing import Any

MOST_DEPTH = 127


class NotJson(Exception):
    """The bytes aren't valid JSON."""


class Other:
    """A number that isn't whole."""


def whole_or_other(digits: str) -> "int | Other":
    """Returns a number that is written as a whole one."""
    if digits != "-0" and len(digits) <= 20 and -(1 << 63) <= int(digits) < 1 << 64:
        return int(digits)
    return other(digits)


def other(digits: str) -> Other:
    """Returns a number that isn't whole, or isn't in range; one that overflows a float isn't valid JSON here."""
    if math.isinf(float(digits)):
        raise NotJson
    return Other()


def no_constant(_word: str) -> None:
    """Refuses the words that Python reads as numbers."""
    raise NotJson


def is_too_deep(text: str) -> bool:
    """Tells whether lists and objects are nested too deep."""
    depth, is_text, is_escaped = 0, False, False
    for letter in text:
        if is_text:
            is_text = is_escaped or letter != '"'
            is_escaped = letter == "\\" and not is_escaped
        elif letter == '"':
            is_text = True
        elif letter in "[{":
            depth += 1
            if depth > MOST_DEPTH:
                return True
        elif letter in "]}":
            depth -= 1
    return False


def has_lone_surrogate(value: Any) -> bool:
    """Tells whether a text in a value has half of a surrogate pair, which isn't a character."""
    if isinstance(value, str):
        return any("\ud800" <= letter <= "\udfff" for letter in value)
    if isinstance(value, list):
        return any(map(has_lone_surrogate, value))
    if isinstance(value, Pairs):
        return any(has_lone_surrogate(name) or has_lone_surrogate(it) for name, it in value.pairs)
    return False


class Pairs:
    """An object as it is written, each name with its value."""

    def __init__(self, pairs: list[tuple[str, Any]]) -> None:
        self.pairs = pairs


def by_name(value: Any) -> Any:
    """Returns a value with its objects by name, of two equal names the last."""
    if isinstance(value, Pairs):
        return {name: by_name(it) for name, it in value.pairs}
    return list(map(by_name, value)) if isinstance(value, list) else value


def read_json(data: bytes) -> Any:
    """Returns the value of a JSON text."""
    try:
        text = data.decode("utf-8")
        if text.count("[") + text.count("{") > MOST_DEPTH and is_too_deep(text):
            raise NotJson
        read = json.loads(
            text, parse_int=whole_or_other, parse_float=other, parse_constant=no_constant, object_pairs_hook=Pairs
        )
    except ValueError as fault:
        raise NotJson from fault
    if "\\u" in text and has_lone_surrogate(read):
        raise NotJson
    return by_name(read)


def compact(value: Any) -> bytes:
    """Returns the compact text of a value of whole numbers, texts and flags: names in byte order, no white space."""
    return json.dumps(value, ensure_ascii=False, separators=(",", ":"), sort_keys=True).encode()
