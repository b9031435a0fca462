"""What a line of the program says, in words, with the numbers of the file that it speaks of."""

import re
from collections.abc import Callable

from ..shared.fault import Fault
from ..shared.values import MOST_BYTES
from . import jsontext, names, rules, sources
from ..shared.cells import tables_of, with_cells
from .pattern_sentences import sentences
from .sources import Source

RULES = {
    1: "the ring of an enabled phase is 1 or 2",
    2: "the list of concurrent phases holds phases 1 to 16, and not the phase itself",
    3: "each phase of the list has this one in its own list",
    4: "the list has only phases of the other ring",
    5: "some phase of the list is enabled",
    6: "two phases of a ring with a concurrent phase in common have the same ones",
    7: "there are at least two barrier groups",
    8: "each ring of a sequence has each of its enabled phases once, and nothing else",
    9: "the phases of a barrier group follow each other, and both rings have the groups in the same order",
    10: "the yellow change is 3.0 s or more",
    11: "the red revert is at most the minimum service and clearance of any other phase together",
    12: "phases that turn green as start-up ends may be on together",
    13: "offsets are corrected by dwell, shortway or add only, and the limits are above 0",
    14: "a pattern runs a split 1 to 32, and a sequence 1 to 16 that isn't empty",
    15: "the offset is less than the cycle",
    16: "a pattern coordinates one phase of each ring; both may be on together, and neither is omitted",
    17: "the splits of each ring total the cycle, and in each barrier group those of both rings total the same",
    18: "a phase that is neither coordinated nor omitted has time in its split for its minimum service "
    "and the clearances",
    19: "the coordinated phases stay green together long enough for the correction of offsets and their minimum "
    "service",
    20: "track, dwell and exit phases of a preempt are enabled, without duplicates, and may be on together",
    21: "a download leaves the enabled phases, their rings and lists as they are, unless the cabinet is in flash",
    22: "a phase without walk has no pedestrian clearance",
}
TRACE_RULES = {
    1: "the text is longer than 67,108,864 bytes", 2: "these bytes are not a line of a trace",
    3: "line 1 is not the S line of a valid scenario",
    4: "a line of another kind, cabinet or number is expected here",
    5: "the journal doesn't have each item of the cabinet's round once",
    6: "a different F line is expected here", 7: "a different reply is expected here",
    8: "a different end of a download is expected here",
    9: "a different note of the master is expected here", 10: "the text ends before its Z line",
    11: "something follows the Z line",
}  # fmt: skip
OVERLAP_RULES = {
    1: "the trace has no cabinet with this number", 2: "this parent isn't an enabled phase, or is a duplicate",
    3: "the yellow change of an overlap is 3.0 s or more",
    4: "trail, yellow and red clearance together take longer than this parent may clear in",
}  # fmt: skip
OTHERS = {
    "read fault": "the input couldn't be read",
    "write fault": "the output couldn't be written: a full disk, or a pipe that was closed",
    "out of memory": "the program ran out of memory",
}  # fmt: skip


class NotKnown(Fault):
    """A line isn't one of the program's, or doesn't fit the file, in words."""


def of_refusal(content: bytes, line: str) -> list[str]:
    """Returns what a line says with which the program refuses a scenario or a field file, by its text: what was
    expected, and what was found. Only the first fault is looked for, so that this is quick even if there are many."""
    if len(content) <= MOST_BYTES and line.startswith(("scenario: not JSON", "scenario: field ", "scenario: limit ")):
        try:
            value = jsontext.read(content)
        except jsontext.NoJson as fault:
            if line != "scenario: not JSON":
                raise NotKnown("the file is not JSON") from None
            return [str(fault)]
        found = next((it for it in sources.faults_of(content.decode(), value) if it.line == line), None)
        if found is None:
            raise NotKnown("the file doesn't have this fault")
        return [f"{found.place}: {found.where}: {found.words}"]
    return explained(sources.source_of("scenario.json", content, names.Names), line)


def fault_of_value(source: Source, line: str) -> list[str]:
    """Returns what is wrong with a name or a value."""
    found = [it for it in source.errors if it.line == line]
    if not found:
        raise NotKnown("the file doesn't have this fault")
    return [str(it) for it in found[:1]]


def broken_rule(source: Source, line: str, found: re.Match) -> list[str]:
    """Returns the sentences of a broken rule of the opening tables."""
    number, rule, row = map(int, found.groups())
    street = street_of(source)
    if number > len(street.scenario["cabinets"]):
        raise NotKnown(f"the file has no cabinet {number}")
    tables = tables_of(street.scenario["cabinets"][number - 1])
    return said(
        street,
        number,
        rules.Broken(rule, row),
        rules.broken(tables),
        lambda it: sentences(tables, street.names.intersection(number), it),
    )


def refused_load(source: Source, line: str, found: re.Match) -> list[str]:
    """Returns why a cabinet refuses a download, after those before it that it has taken."""
    number, count, rule, row = map(int, found.groups())
    street = street_of(source)
    loads = [it for it in street.scenario.get("loads", ()) if it["cabinet"] == number]
    if not 1 <= count <= len(loads):
        raise NotKnown(f"the file has no download {count} of cabinet {number}")
    before = tables_of(street.scenario["cabinets"][number - 1])
    for load in loads[: count - 1]:
        new = with_cells(before, load["cells"])
        before = before if rules.broken(new, before) else new
    new = with_cells(before, loads[count - 1]["cells"])
    known = street.names.intersection(number)
    return said(
        street, number, rules.Broken(rule, row), rules.broken(new, before), lambda it: sentences(new, known, it, before)
    )


def said(street, number: int, broken: rules.Broken, all_broken: list[rules.Broken], words: Callable) -> list[str]:
    """Returns what a rule asks, and the sentences about its row."""
    if broken.rule not in RULES:
        raise NotKnown(f"rule {broken.rule} doesn't exist")
    asks = f"rule {broken.rule} requires: {RULES[broken.rule]}"
    if broken not in all_broken:
        raise NotKnown(f"{asks}; the file keeps it in row {broken.row}")
    more = len(all_broken) - 1
    tail = (
        [f"{more} more {'rule is' if more == 1 else 'rules are'} broken there: `plan check` has them all"]
        if more
        else []
    )
    return [asks, *(f"{street.names.called(number)}: {it}" for it in words(broken)), *tail]


def street_of(source: Source):
    """Returns the street of a file that can be read."""
    if source.street is None or source.errors:
        raise NotKnown(f"the file can't be read: {source.errors[0]}")
    return source.street


def by_table(words: dict[int, str]) -> Callable:
    """Returns what explains a line by a table of rules."""

    def explained(source: Source, line: str, found: re.Match) -> list[str]:
        rule = int(found["rule"])
        if rule not in words:
            raise NotKnown(f"rule {rule} doesn't exist")
        return [f"rule {rule}: {words[rule]}"]

    return explained


LINES: tuple[tuple[str, Callable[[Source, str, re.Match[str]], list[str]]], ...] = (
    (r"scenario: cabinet (\d+) breaks rule (\d+) at row (\d+)", broken_rule),
    (r"scenario: (?:not JSON|field .*|limit .*)", lambda source, line, _: fault_of_value(source, line)),
    (r"L (\d+) (\d+) refused (\d+) (\d+)", refused_load),
    (r"trace: line \d+ breaks rule (?P<rule>\d+)", by_table(TRACE_RULES)),
    (r"overlap: rule (?P<rule>\d+) at row \d+", by_table(OVERLAP_RULES)),
    (r"read fault|write fault|out of memory", lambda _, line, __: [OTHERS[line]]),
    (r"usage: .*", lambda *_: ["unknown command or wrong arguments: `./arterial --help` lists all commands"]),
)


def is_line(line: str) -> bool:
    """Tells whether a line is one that the program writes."""
    return any(re.fullmatch(pattern, line) for pattern, _ in LINES)


def explained(source: Source, line: str) -> list[str]:
    """Returns what a line of the program says of a file."""
    for pattern, words in LINES:
        found = re.fullmatch(pattern, line)
        if found:
            return words(source, line, found)
    raise NotKnown(f"not a line of the program: {line!r}")
