"""The commands of the launcher: the one place where a command is named.

A new command of the tools is one line in TOOLS, and a module `streettools/NAME/command.py` with
`main(words: list[str]) -> int`, which raises what it can't do: `run` is the boundary of all of them. A command is shown
in help and accepted only if that module is there. Its parser is named in streettools/reference/tree.py.
"""

import importlib
import os
from typing import NamedTuple

from .shared.boundary import bounded

HERE = os.path.dirname(os.path.realpath(__file__))


class Word(NamedTuple):
    """A command, and what it does in half a line."""

    name: str
    does: str

    def is_there(self) -> bool:
        """Returns whether this checkout has the command."""
        return os.path.isfile(os.path.join(HERE, self.name, "command.py"))


TOOLS = (
    Word("look", "draw a trace, report its timing, write its event log"),
    Word("why", "say why a phase is green, or isn't, at a moment of a trace"),
    Word("log", "judge, replay and compare event logs of controllers in the field"),
    Word("cabinet", "run a live cabinet that answers SNMP version 1 on loopback"),
    Word("cosim", "simulate traffic with the cabinets: SUMO's vehicles, or queues"),
    Word("street", "run the cabinets of a scenario live, each at its own port"),
    Word("conform", "test a controller at an address against the proved cabinet"),
    Word("plan", "convert and check timing sheets"),
    Word("sweep", "run many plans over many scenarios, on one machine or several"),
)
"""Commands of the tools, which are not proved."""

PROVE = Word("prove", "prove the program here, and build it")
TAKE = Word("take", "use a published proof of the same sources")
"""What the launcher itself does."""

LAUNCH = Word("launch", "what the launcher's shell hands over to Python; not for users")

OF_PROGRAM = (
    Word("run", "simulate a scenario and write its trace"),
    Word("check", "check whether a text is a trace"),
    Word("live", "run a scenario request by request"),
    Word("overlaps", "show when an overlap of a trace changes"),
    Word("judge", "judge the log of any controllers, line by line"),
    Word("band", "compute the progression bands of a plan"),
    Word("respond", "compute calls and patterns from detector pulses"),
    Word("generate", "write a random scenario"),
    Word("survey", "run a random scenario and write its totals"),
)
"""Commands of the program itself, which are proved."""

PROGRAM = tuple(word.name for word in OF_PROGRAM)


def tools() -> list[Word]:
    """Returns the commands of the tools that this checkout has."""
    return [word for word in TOOLS if word.is_there()]


def meant(word: str) -> str | None:
    """Returns the command that is nearest to an unknown one, None if no command is near."""
    import difflib  # takes a while

    known = [*PROGRAM, PROVE.name, TAKE.name, *(it.name for it in tools()), "--help", "--version"]
    return next(iter(difflib.get_close_matches(word, known, 1)), None)


def is_word(word: str) -> bool:
    """Returns whether `run` accepts a command."""
    return word in [it.name for it in (*tools(), LAUNCH)]


def run(words: list[str]) -> int:
    """Runs the command of the tools that the first argument names, and returns its exit status."""
    name, *rest = words
    tool = "arterial" if name == LAUNCH.name else name
    return bounded(tool, lambda given: importlib.import_module(f"streettools.{name}.command").main(given), rest)
