"""Traces in another order of what comes in their rounds, and damaged traces."""

import re
from random import Random

from model.lines import journal_line
from model.run import JournalDue, Run, Runs
from model.scenario import Scenario

NUMBER = re.compile(rb"\d+")
OTHERS = [b"0", b"1", b"2", b"00", b"255", b"256", b"65536", b"4294967295", b"4294967296", b"-1", b""]


def merged(draw: Random, due: JournalDue) -> Runs:
    """Draws a journal that takes each item once: runs of the passes in any order."""
    left = {number: count for number, count in enumerate(due.items) if count}
    runs: Runs = []
    while left:
        number = draw.choice(list(left))
        count = draw.choice([1, left[number], draw.randint(1, left[number])])
        left[number] -= count
        if left[number] == 0:
            del left[number]
        if runs and runs[-1][0] == number:
            runs[-1] = (number, runs[-1][1] + count)
        else:
            runs.append((number, count))
    return runs


def trace_in_order(draw: Random, scenario: Scenario) -> bytes:
    """Returns the trace of a scenario in a drawn order."""
    due, given, lines = Run(scenario).lines(), None, []
    try:
        while True:
            told = due.send(given)
            given = merged(draw, told) if isinstance(told, JournalDue) else None
            lines.append(told if given is None else journal_line(told.cabinet, given))
    except StopIteration:
        return b"".join(line + b"\n" for line in lines)


def other_number(draw: Random, line: bytes) -> bytes:
    """Returns a line with one number changed."""
    places = list(NUMBER.finditer(line))
    if not places:
        return line
    at = draw.choice(places)
    number = int(at.group()) if len(at.group()) < 10 else 0
    put = draw.choice([*OTHERS, b"%d" % (number + 1), b"%d" % max(0, number - 1)])
    return line[: at.start()] + put + line[at.end() :]


def other_letter(draw: Random, line: bytes) -> bytes:
    """Returns a line with one byte changed."""
    if not line:
        return b" "
    at = draw.randrange(len(line))
    return (
        line[:at] + draw.choice([b"G", b"R", b"Y", b"C", b"D", b"W", b" ", b"0", b"\xff", b"-", b"a"]) + line[at + 1 :]
    )


def other_runs(draw: Random, line: bytes) -> bytes:
    """Returns a J line with its runs in another order."""
    words = line.split(b" ")
    return b" ".join(words[:2] + draw.sample(words[2:], len(words) - 2))


def with_damage(draw: Random, text: bytes) -> bytes:
    """Returns a trace with damage of one kind: to a line, to the order of lines, or to the end."""
    lines = text.split(b"\n")
    at = draw.randrange(len(lines))
    kind = draw.randrange(10)
    if kind < 3:
        lines[at] = other_number(draw, lines[at])
    elif kind < 5:
        lines[at] = other_letter(draw, lines[at])
    elif kind < 6:
        journals = [place for place, line in enumerate(lines) if line[:1] == b"J"] or [at]
        place = draw.choice(journals)
        lines[place] = other_runs(draw, lines[place])
    elif kind < 7:
        del lines[at]
    elif kind < 8:
        lines.insert(at, draw.choice(lines))
    elif kind < 9:
        other = draw.randrange(len(lines))
        lines[at], lines[other] = lines[other], lines[at]
    else:
        return text[: draw.randrange(len(text))] if draw.random() < 0.7 else text + draw.choice([b"\n", b"Z 1\n", b"x"])
    return b"\n".join(lines)
