"""Which bytes are a line of a trace, and what is due of a text that departs from a trace, by docs/TRACE.md.

It is written for the scripts beside, and shares nothing with the program.
"""

import collections
import json
import re
import sys

sys.dont_write_bytecode = True

import first_fault as of_scenarios  # noqa: E402

NUMBER = rb"(0|[1-9][0-9]{0,9})"
SIGNED = rb"(0|-?[1-9][0-9]{0,9})"
MODE = rb"(?:[SFEX]|[KC]" + NUMBER + rb"|P" + NUMBER + rb"[etdx])"
RUNS = rb"((?: (?:0|[1-9][0-9]{0,9})\*[1-9][0-9]{0,9})+)"

WORD, HALF, BYTE = 1 << 32, 1 << 16, 1 << 8
SIGN = range(-(1 << 31), 1 << 31)
FORMS = [
    (
        rb"F %b %b [GYCR]{16} [WFD]{16} %b %b %b %b" % (NUMBER, NUMBER, MODE, NUMBER, NUMBER, NUMBER),
        (WORD, WORD, BYTE, BYTE, WORD, WORD, WORD),
    ),
    (rb"R %b" % NUMBER, (WORD,)),
    (rb"M %b (?:fail|good)" % NUMBER, (WORD,)),
    (rb"M %b pattern %b" % (NUMBER, NUMBER), (WORD, BYTE)),
    (rb"M %b load %b done" % (NUMBER, NUMBER), (WORD, WORD)),
    (rb"M %b load %b refused %b %b" % (NUMBER, NUMBER, SIGNED, SIGNED), (WORD, WORD, SIGN, SIGN)),
    (rb"L %b %b accepted %b" % (NUMBER, NUMBER, NUMBER), (WORD, WORD, WORD)),
    (rb"L %b %b refused %b %b" % (NUMBER, NUMBER, NUMBER, NUMBER), (WORD, WORD, BYTE, HALF)),
    (rb"A %b %b (?:-|(?:[0-9a-f]{2}){1,1472})" % (NUMBER, NUMBER), (WORD, WORD)),
    (rb"Z %b" % NUMBER, (WORD,)),
]
"""The lines of which every number has one range, below the one named or among the named ones."""

FORMS = [(re.compile(form + rb"\n"), limits) for form, limits in FORMS]
JOURNAL = re.compile(rb"J " + NUMBER + RUNS + rb"\n")
RULES = {b"J": 5, b"F": 6, b"A": 7, b"L": 8, b"M": 9}
"""The rule that a line breaks which differs from one of its kind and cabinet."""

TOO_LONG, NO_LINE, NO_SCENARIO, OTHER, ENDS, BEHIND = 1, 2, 3, 4, 10, 11


def pieces(text):
    """Returns the lines of a text, each with its newline; the last without one where there is none."""
    found = text.split(b"\n")
    return [line + b"\n" for line in found[:-1]] + ([found[-1]] if found[-1] else [])


def is_within(word, limit):
    """Returns whether a number that is written is in a range; one that isn't there is."""
    return word is None or int(word) in (limit if type(limit) is range else range(limit))


def runs_of(piece):
    """Returns the runs of a journal as pairs of a pass and a count; None where the bytes are no journal."""
    found = JOURNAL.fullmatch(piece)
    if not found or not is_within(found[1], WORD):
        return None
    runs = [tuple(map(int, run.split(b"*"))) for run in found[2].split()]
    is_proper = (
        all(number < WORD for run in runs for number in run) and all(a[0] != b[0] for a, b in zip(runs, runs[1:]))
    )
    return runs if is_proper else None


def is_line(piece):
    """Returns whether some bytes are a line of a trace."""
    if piece.startswith(b"S "):
        return piece.endswith(b"\n")
    if piece.startswith(b"J "):
        return runs_of(piece) is not None
    for form, limits in FORMS:
        if found := form.fullmatch(piece):
            return all(map(is_within, found.groups(), limits))
    return False


def head_of(piece):
    """Returns what a line must have in common with the one due, not to be of another kind: its kind, and its cabinet or
    number."""
    return piece.split()[:2]


def items_of(runs):
    """Returns how often each pass brings an item in a journal's runs."""
    counts = collections.Counter()
    for number, count in runs:
        counts[number] += count
    return counts


def is_scenario(piece):
    """Returns whether a line is an S line with the compact text of a scenario, the rules of tables left out."""
    text = piece.removeprefix(b"S ")
    fault, value = of_scenarios.first_fault(text[:-1])
    if piece == text or fault is not None:
        return False
    return json.dumps(value, sort_keys=True, separators=(",", ":"), ensure_ascii=False).encode() == text[:-1]


def first_fault(text, trace):
    """Returns the first fault of a text as its line and its rule, where a trace is known that it departs from: None
    where it is that trace. Where the text has another scenario, or brings what comes in a round in another order, the
    line is the one that tells it, and the rule None: what is due behind that line isn't told."""
    lines, due = pieces(text), pieces(trace)
    at = next(
        (place for place, (line, other) in enumerate(zip(lines, due)) if line != other), min(len(lines), len(due))
    )
    if at == len(due):
        return None if len(lines) == len(due) else (at + 1, BEHIND)
    if at == len(lines):
        return at + 1, ENDS
    if not is_line(lines[at]):
        return at + 1, NO_LINE
    if at == 0:
        return 1, None if is_scenario(lines[0]) else NO_SCENARIO
    if head_of(lines[at]) != head_of(due[at]):
        return at + 1, OTHER
    if lines[at].startswith(b"J ") and items_of(runs_of(lines[at])) == items_of(runs_of(due[at])):
        return at + 1, None
    return at + 1, RULES[lines[at][:1]]
