"""The command `./arterial log`: does what its words ask for. What takes a while to import is imported where it is
needed."""

import argparse
from typing import TYPE_CHECKING

from ..shared.saying import say
from ..shared.status import Status
from .words import parser

if TYPE_CHECKING:
    from .reading import Asked


def asked_of(words: argparse.Namespace) -> "Asked":
    """Returns what a log is read with."""
    from . import reading, street
    from .rows import Given

    plan = street.read(words.sheet, words.names)
    return reading.Asked([words.events], plan, Given(words.columns, words.day_first), words.devices, words.hole)


def read(words: argparse.Namespace) -> int:
    """Writes the lines for `judge`."""
    from . import reading

    with reading.opened(asked_of(words)) as log:
        names = reading.write(log, words.output)
        for line in log.sentences():
            say("log", line)
    if len(names) > 1:
        say("log", f"{len(names)} parts: {names[0]}, {names[1]}{', ..' if len(names) > 2 else ''}")
    return Status.DONE


def judge(words: argparse.Namespace) -> int:
    """Reports the breaches of a log, and writes its page."""
    import os
    import tempfile

    from ..shared import files
    from . import judging, reading, sentences, summary

    program = judging.program_of(words.program)
    with tempfile.TemporaryDirectory(prefix="arterial-log-") as room, reading.opened(asked_of(words)) as log:
        parts = reading.write(log, os.path.join(room, "log.indications"))
        told = sentences.told(log.plan, log.midnight, parts, judging.judged(program, parts, words.tolerance))
        if words.page:
            from . import page

            page.write(log, parts, told, words.page)
        for line in log.sentences():
            say("log", line)
        with files.output(words.output) as out:
            out.write((summary.as_json if words.json else summary.text)(log, told, words.tolerance))
    return judging.UNSAFE if told else Status.DONE


def replay(words: argparse.Namespace) -> int:
    """Writes the scenario of a log."""
    from . import reading, spans
    from . import replay as replays

    with reading.opened(asked_of(words)) as log:
        found = replays.replayed(log, spans.span_of(log, words.first, words.last), words.priority)
        replays.write(found, words.output)
        for line in log.sentences():
            say("log", line)
    counts = f"{len(found.inputs):,} inputs, {len(found.requests):,} priority requests, {len(found.frames):,} patterns"
    say("log", f"{counts}; rounds of {found.ticks / 10:.1f} s")
    return Status.DONE


def compare(words: argparse.Namespace) -> int:
    """Compares a log with a trace."""
    import json
    import os
    import tempfile

    from ..shared import files
    from . import both, comparing, reading

    with tempfile.TemporaryDirectory(prefix="arterial-log-") as room, reading.opened(asked_of(words)) as log:
        parts = reading.write(log, os.path.join(room, "log.indications"))
        pair = both.read(log, parts, words.trace, words.first, words.last)
        found, places = pair.compared(), {it: log.plan.place(it) for it in log.devices.values()}
        if words.page:
            both.write_page(pair, words.page)
        for line in log.sentences():
            say("log", line)
        with files.output(words.output) as out:
            if words.json:
                out.write(json.dumps(comparing.as_json(found, places, pair.span), indent=1, ensure_ascii=False) + "\n")
            else:
                out.write(comparing.text(found, places, pair.span))
    return Status.DONE


DOES = {"read": read, "judge": judge, "replay": replay, "compare": compare}


def main(arguments: list[str]) -> int:
    """Does what the words ask for, and returns the exit status."""
    words = parser().parse_args(arguments)
    return DOES[words.command](words)
