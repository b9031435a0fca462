"""The first fault of a text that is to be a scenario, by docs/SCENARIO.md; the rules of tables are left out.

It is written for the scripts beside, and shares nothing with the program.
"""

import json
import math

NOT_JSON = "not JSON"
DEEPEST = 127
MOST_BYTES, MOST_TICKS = 16_777_216, 55_296_000

WHOLE = None
"""The path of the whole text."""


class Fault(Exception):
    """A value is of the wrong kind (`field`) or out of range (`limit`), at a path."""

    def __init__(self, what, path):
        super().__init__(f"{what} {'.' if path is WHOLE else path}")


def require(holds, what, path):
    """Goes on only where a condition holds."""
    if not holds:
        raise Fault(what, path)


def below(path, name):
    """Returns the path of a name in the object of a path."""
    return name if path is WHOLE else f"{path}.{name}"


def whole(low, high, also=None):
    """Returns what tests a whole number for its range, in which one more number may be."""

    def test(path, value):
        require(type(value) is int, "field", path)
        require(low <= value <= high or value == also, "limit", path)

    return test


def word(*words):
    """Returns what tests a text for being one of some words."""
    return lambda path, value: require(type(value) is str and value in words, "field", path)


def flag(path, value):
    """Tests a value for being true or false."""
    require(type(value) is bool, "field", path)


def community(path, value):
    """Tests a community's name."""
    require(type(value) is str and all(" " <= letter <= "~" for letter in value), "field", path)
    require(1 <= len(value) <= 32, "limit", path)


def digits(most):
    """Returns what tests a text for being hexadecimal, of so many octets at the most."""

    def test(path, value):
        require(
            type(value) is str and len(value) % 2 == 0 and all(digit in "0123456789abcdefABCDEF" for digit in value),
            "field",
            path,
        )
        require(len(value) <= 2 * most, "limit", path)

    return test


def listing(low, high, item):
    """Returns what tests a list for its length, and then each item."""

    def test(path, value):
        require(type(value) is list, "field", path)
        require(low <= len(value) <= high, "limit", path)
        for place, it in enumerate(value):
            item(f"{path}[{place}]", it)

    return test


def thing(names, alternatives=(), after=None):
    """Returns what tests an object: its names in order, each with its test and whether it must stand; then the one of
    the alternatives that stands, known by its first name; then what is to hold of it all."""

    def test(path, value):
        require(type(value) is dict, "field", path)
        standing = [it for it in alternatives if next(iter(it)) in value]
        known = set(names).union(*(standing if len(standing) == 1 else alternatives))
        for name in sorted(value, key=str.encode):
            require(name in known, "field", below(path, name))
        members(path, value, names)
        if alternatives:
            require(len(standing) == 1, "field", path)
            members(path, value, standing[0])
        if after:
            after(path, value)

    return test


def members(path, value, names):
    """Tests the names of an object, in order."""
    for name, (test, must_stand) in names.items():
        if name in value:
            test(below(path, name), value[name])
        else:
            require(not must_stand, "field", below(path, name))


def must(test):
    """Says that a name must stand."""
    return test, True


def may(test):
    """Says that a name may be absent."""
    return test, False


LIST_OF_PHASES = digits(16)
BYTE, WORD = whole(0, 255), whole(0, 65535)
COLUMNS = {
    "phase": ((16,), {**{column: BYTE for column in range(2, 23)}, 20: whole(1, 6), 21: WORD, 23: LIST_OF_PHASES}),
    "sequence": ((16, 2), LIST_OF_PHASES),
    "unit": (
        (),
        {
            1: whole(1, 4),
            **{column: whole(0, 2550) for column in (2, 3, 4, 6)},
            5: WORD,
            7: whole(1, 2),
            8: whole(1, 2),
        },
    ),
    "pattern": ((48,), {column: BYTE for column in (2, 3, 4, 5)}),
    "split": ((32, 16), {3: BYTE, 4: whole(1, 7), 5: whole(0, 1)}),
    "preempt": (
        (8,),
        {
            4: whole(0, 600),
            5: WORD,
            11: WORD,
            **{column: BYTE for column in (6, 7, 8, 9, 10)},
            **{column: LIST_OF_PHASES for column in (12, 13, 14, 15)},
        },
    ),
}
"""The greatest number in each place of a table's rows, and what tests the value in each column, or in each row."""


def cell(path, value):
    """Tests a cell. Whatever is wrong in it, its own path is told."""
    require(type(value) is list and value and type(value[0]) is str and value[0] in COLUMNS, "field", path)
    greatest, columns = COLUMNS[value[0]]
    require(len(value) == len(greatest) + (3 if type(columns) is dict else 2), "field", path)
    for number, most in zip(value[1:], greatest):
        require(type(number) is int and 1 <= number <= most, "field", path)
    if type(columns) is dict:
        require(type(value[-2]) is int and value[-2] in columns, "field", path)
        columns = columns[value[-2]]
    columns(path, value[-1])


def only_one_drift(path, value):
    """Tests a cabinet's clock for not gaining and losing both."""
    require(not (value.get("gain") and value.get("lose")), "field", path)


def leaves_after_coming(path, value):
    """Tests a priority request for not leaving before it comes."""
    require("cancel" in value or value["arrival"] <= value["departure"], "limit", below(path, "departure"))


def cabinet(version):
    """Returns what tests a cabinet."""
    names = {
        "base": may(word("std8", "max8")),
        "cells": may(listing(0, 4096, cell)),
        "pattern": may(BYTE),
        "clock": may(whole(0, 863999)),
        "section": may(whole(1, 8)),
    }
    drift = whole(12000, 864000, also=0)
    return (
        thing({**names, "gain": may(drift), "lose": may(drift)}, after=only_one_drift) if version == 2 else thing(names)
    )


def few_loads(loads):
    """Returns what tests a list of downloads, at most a hundred of a cabinet."""
    counts = {}

    def test(path, value):
        loads(path, value)
        counts[value["cabinet"]] = counts.get(value["cabinet"], 0) + 1
        require(counts[value["cabinet"]] <= 100, "limit", path)

    return test


EVERY, TEN = may(whole(0, 86400)), must(whole(1, 10))
ENTRY = thing({"second": must(whole(0, 86399)), "section": must(whole(1, 8)), "pattern": must(BYTE)})
MASTER = thing(
    {
        "clock": may(whole(0, 863999)),
        "poll_every": EVERY,
        "clock_every": EVERY,
        "pattern_every": EVERY,
        "retries": may(whole(1, 10)),
        "schedule": may(listing(0, 1000, ENTRY)),
    }
)
STREAM, PHASE = must(word("poll", "load", "priority")), must(whole(1, 16))
ON = must(flag)


def lists(rounds, cabinets):
    """Returns what tests the lists of what happens in some rounds to some cabinets."""
    where = {"round": must(whole(1, rounds)), "cabinet": must(whole(1, cabinets))}
    inputs = ({"veh": PHASE, "on": ON}, {"ped": PHASE}, {"preempt": must(whole(1, 8)), "on": ON})
    request = {
        "number": TEN, "class": TEN, "level": TEN, "phase": PHASE, "arrival": must(WORD), "departure": must(WORD)
    }
    fault = {
        "stream": STREAM,
        "way": must(word("down", "up")),
        "index": may(WORD),
        "kind": must(word("lose", "repeat", "late", "flip", "cut")),
        "by": EVERY,
        "octet": may(whole(1, 255)),
    }
    items = {
        "inputs": (1_000_000, thing(where, inputs)),
        "loads": (math.inf, few_loads(thing({**where, "cells": must(listing(1, 768, cell))}))),
        "priority": (100_000, thing(where, ({"cancel": TEN}, request), leaves_after_coming)),
        "frames": (100_000, thing({**where, "stream": STREAM, "hex": must(digits(1472))})),
        "faults": (100_000, thing({**where, **fault})),
    }
    return {name: may(listing(0, most, item)) for name, (most, item) in items.items()}


def scenario(value):
    """Tests a whole scenario, all but the rules of tables."""

    def rest(_, it):
        members(WHOLE, it, {"cabinets": must(listing(1, 64, cabinet(it["version"]))), "master": may(MASTER)})
        members(WHOLE, it, lists(it["rounds"], len(it["cabinets"])))
        require(ticks_of(it) <= MOST_TICKS, "limit", "rounds")

    head = {
        "version": must(whole(1, 2)),
        "rounds": must(whole(1, 86400)),
        "ticks": must(whole(1, 600)),
        "community": may(community),
    }
    names = ("cabinets", "master", "inputs", "loads", "priority", "frames", "faults")
    thing({**head, **{name: may(lambda *_: None) for name in names}}, after=rest)(WHOLE, value)


def ticks_of(value):
    """Returns how many ticks a scenario has in all."""
    return len(value["cabinets"]) * value["rounds"] * value["ticks"]


def number_of(digits):
    """Returns a number that is written without a point and a power: whole where 64 bits hold it and it isn't -0."""
    if digits != "-0" and len(digits) <= 20 and -(2**63) <= int(digits) < 2**64:
        return int(digits)
    return real_of(digits)


def real_of(digits):
    """Returns any other number, which must be finite."""
    if math.isinf(number := float(digits)):
        raise ValueError
    return number


def unknown(name):
    """Refuses names of numbers that JSON has not."""
    raise ValueError(name)


def members_of(pairs):
    """Returns an object; of two equal names the last counts. Texts with half a character, which can only be written by
    escapes, are no JSON."""
    for name, value in pairs:
        depth_of([name, value])
    return dict(pairs)


def depth_of(value):
    """Returns how deep lists and objects stand in a value."""
    if type(value) is str:
        value.encode()
    parts = list(value.values()) if type(value) is dict else value
    return 1 + max(map(depth_of, parts), default=0) if type(value) in (dict, list) else 0


def read(data):
    """Returns the value that some bytes are in JSON (RFC 8259), as a tuple of one; the empty one where they are
    none."""
    try:
        text = data.decode()
        value = json.loads(
            text,
            object_pairs_hook=members_of if "\\u" in text else dict,
            parse_int=number_of,
            parse_float=real_of,
            parse_constant=unknown,
        )
        return (value,) if depth_of(value) <= DEEPEST else ()
    except (ValueError, RecursionError):
        return ()


def first_fault(data):
    """Returns the first fault of some bytes, in the words that the program has for it, or None; then the scenario
    too."""
    if len(data) > MOST_BYTES:
        return "limit .", None
    for value in read(data):
        try:
            scenario(value)
        except Fault as fault:
            return str(fault), None
        return None, value
    return NOT_JSON, None
