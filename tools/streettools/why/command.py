"""The command `./arterial why`: says in words why a phase is green, or isn't, at a moment of a trace."""

import argparse

from ..shared import files
from ..shared.clock import daytime
from ..shared.commandline import Parser, add_json, add_output, number
from ..shared.progress import bar
from ..shared.saying import say
from ..shared.status import Status
from . import asked

EPILOG = """examples:
  ./arterial why trace --phase 4 --at 433                  433 seconds after the start of the run
  ./arterial why street.trace --cabinet 2 --phase 4 --at 07:13
  ./arterial why street.trace --scenario street.toml --cabinet "Oak & 3rd" --phase 4 --at 07:13:05.5
  ./arterial why - --phase 4 --at 4330t --json < trace     the reasons as data; t is ticks of 0.1 s

The model (model/README.md) takes the cabinet through the trace once more; docs/WHY.md lists the reasons.
Exit status: 0 done, 1 a file can't be read or written, 2 the arguments or the text are invalid, 130 Ctrl-C.
"""


def parser() -> argparse.ArgumentParser:
    """Returns the reader of the words."""
    words = Parser("why", description="Says why a phase is green, or isn't, at a moment of a trace.", epilog=EPILOG)
    words.add_argument("trace", help="the trace's file; - is standard input")
    words.add_argument("--cabinet", metavar="NAME", help="the cabinet, by its number or by its intersection's name "
                       "(default: the only one)")  # fmt: skip
    words.add_argument("--phase", type=number(1, 16), required=True, metavar="N", help="the phase, 1 to 16")
    words.add_argument("--at", type=asked.moment, required=True, metavar="TIME",
                       help="the moment: a time of day, as 07:13 or 07:13:05.5; seconds of the run, as 433; or ticks, "
                       "as 4330t")  # fmt: skip
    words.add_argument("--start", type=daytime, metavar="TIME", help="the time of day of tick 0 (default: the "
                       "master's clock if it is set, otherwise the cabinet's clock)")  # fmt: skip
    words.add_argument("--scenario", metavar="FILE", help="the sheet or the scenario of the run, for the names")
    words.add_argument("--names", metavar="FILE", help="names of cabinets and phases, as `arterial plan scenario` "
                       "writes them (default: street.names.json for street.trace)")  # fmt: skip
    add_json(words)
    add_output(words, "the file to write (default: standard output)")
    return words


def answered(words: argparse.Namespace) -> str:
    """Returns the answer to what the words ask for."""
    from . import replay  # these take a while
    from .answer import Answer
    from .story import story

    text = replay.read(words.trace)
    cabinets = len(text.scenario.cabinets)
    names = asked.names(words.trace, words.names, words.scenario, cabinets)
    cabinet = asked.cabinet(words.cabinet, names, cabinets)
    times = asked.times(text.scenario, cabinet, words.start, words.at)
    tick = times.tick(words.at)
    if doubt := asked.doubt(words.at):
        say("why", doubt)
    shown = bar(tick, "tick", delay=1)
    try:
        found = story(text, cabinet, words.phase, tick, (lambda done: shown.update(done - shown.n)) if shown else None)
    finally:
        if shown:
            shown.close()
    answer = Answer(found, names, times)
    return answer.json() if words.json else answer.text()


def main(arguments: list[str]) -> int:
    """Does what the words ask for, and returns the exit status."""
    words = parser().parse_args(arguments)
    said = answered(words)
    with files.output(words.output) as out:
        out.write(said)
    return Status.DONE
