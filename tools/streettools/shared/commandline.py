"""The command line: the options that all tools share, and readers of numbers for argparse."""

import argparse
from collections.abc import Callable, Sequence
from typing import Any, NoReturn

from .saying import say
from .short_help import ShortHelp
from .status import Status
from .version import VERSION


class Parser(argparse.ArgumentParser):
    """A reader of arguments, named `arterial TOOL ..`, or by the path of a script. Options can't be shortened. Texts
    before and after the options keep their lines. `-h` prints a short help, `--help` all. It also has `--version` and
    `--traceback`."""

    def __init__(self, prog: str, **more: Any) -> None:
        more.setdefault("formatter_class", argparse.RawDescriptionHelpFormatter)
        name = prog if "/" in prog else f"arterial {prog.removeprefix('arterial ')}"
        more["add_help"] = False
        super().__init__(prog=name, allow_abbrev=False, **more)
        self.add_argument("-h", action=ShortHelp, help="show a short help and exit")
        self.add_argument("--help", action="help", help="show this help and exit")
        self.add_argument("--version", action="version", version=f"arterial {VERSION}")
        # the boundary takes this option away before the others are read
        self.add_argument("--traceback", action="store_true", help="if this tool has a fault, show where")

    def error(self, message: str) -> NoReturn:
        """Refuses the words in one line."""
        say(self.prog.removeprefix("arterial "), f"{message}; --help lists the options")
        raise SystemExit(int(Status.REFUSED))


class Renamed(argparse.Action):
    """An option by its old name, which is taken for one release: it does what the new one does, and says so."""

    def __init__(self, option_strings: Sequence[str], dest: str, new: str, **more: Any) -> None:
        super().__init__(option_strings, dest, help=argparse.SUPPRESS, **more)
        self.new = new

    def __call__(
        self, parser: argparse.ArgumentParser, space: argparse.Namespace, values: Any, option: str | None = None
    ) -> None:
        say(parser.prog, f"{option} is {self.new} now; {option} is not taken any more in the next release")
        setattr(space, self.dest, values)


def add_output(words: Any, text: str, **more: Any) -> None:
    """Adds `-o` and `--output` to a reader of words or to a group of it: what is written, and where; also `--out`, the
    old name."""
    more.setdefault("metavar", "FILE")
    if more.pop("required", False):
        words = words.add_mutually_exclusive_group(required=True)
    words.add_argument("-o", "--output", help=text, **more)
    words.add_argument("--out", action=Renamed, new="--output", dest="output", default=argparse.SUPPRESS, **more)


def add_renamed(words: argparse.ArgumentParser, old: str, new: str, **more: Any) -> None:
    """Adds an option with its new and its old name."""
    dest = new.lstrip("-").replace("-", "_")
    words.add_argument(new, dest=dest, **more)
    more.pop("help", None)
    more["default"] = argparse.SUPPRESS
    words.add_argument(old, action=Renamed, new=new, dest=dest, **more)


def add_program(words: argparse.ArgumentParser) -> None:
    """Adds `--program`."""
    words.add_argument("--program", metavar="FILE", help="the program to run (default: the proved one)")


def add_json(words: argparse.ArgumentParser) -> None:
    """Adds `--json`."""
    words.add_argument("--json", action="store_true", help="write the report as JSON")


def number(least: int, most: int) -> Callable[[str], int]:
    """Returns a reader of whole numbers in a range; the reference of commands shows its attribute `takes`."""

    def read(text: str) -> int:
        value = int(text)
        if not least <= value <= most:
            raise argparse.ArgumentTypeError(f"{text} is not {least} to {most}")
        return value

    setattr(read, "takes", f"{least:,} to {most:,}")
    return read
