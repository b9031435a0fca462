"""The command `./arterial sweep draw`: pictures of a table that a sweep has written."""

import argparse
from pathlib import Path
from typing import Any

from ..shared.commandline import Parser, add_output
from ..shared.fault import Fault
from ..shared.status import Status

EXAMPLES = """\
examples:
  ./arterial sweep draw lines offsets.csv --x offset --of wait_mean --by mode -o wait.svg
  ./arterial sweep draw map offsets.csv --x offset2 --y offset3 --of through_outbound -o through.svg
  ./arterial sweep draw frontier offsets.csv --greatest through_outbound --greatest through_inbound -o both.svg"""


class Wanted(argparse.Action):
    """Keeps the measures of a frontier in their order, each with whether the lowest or the highest value is best."""

    def __call__(
        self, parser: argparse.ArgumentParser, space: argparse.Namespace, value: Any, option: str | None = None
    ) -> None:
        space.wanted = [*(space.wanted or []), (value, 1 if option == "--least" else -1)]


def picture(text: str) -> str:
    """Reads the name of a picture, whose ending gives its form."""
    if Path(text).suffix not in (".svg", ".png", ".pdf"):
        raise argparse.ArgumentTypeError("the picture's name must end in .svg, .png or .pdf")
    return text


def parser() -> argparse.ArgumentParser:
    """Returns the reader of the command's words."""
    words = Parser("sweep draw", description="Draws the table of a sweep.", epilog=EXAMPLES)
    kinds = words.add_subparsers(dest="kind", required=True, metavar="KIND")

    def kind(name: str, help: str) -> argparse.ArgumentParser:
        """Returns the reader of a kind of picture."""
        found = kinds.add_parser(name, help=help, description=f"{help[:1].upper()}{help[1:]}.", epilog=EXAMPLES)
        found.add_argument("table", type=Path, help="the table that a sweep has written")
        add_output(found, "the picture: .svg, .png or .pdf", type=picture, required=True)
        return found

    lines = kind("lines", "a measure over a parameter")
    heat = kind("map", "a measure over two parameters, as a map of colours")
    for it in (lines, heat):
        it.add_argument("--x", required=True, metavar="COLUMN", help="the parameter on the horizontal axis")
        it.add_argument("--of", required=True, metavar="COLUMN", help="the measure")
    lines.add_argument("--by", metavar="COLUMN", help="a line for each value of this parameter")
    heat.add_argument("--y", required=True, metavar="COLUMN", help="the parameter on the vertical axis")
    frontier = kind("frontier", "two measures, and the variants that no other variant beats in both")
    for word, best in (("least", "lowest"), ("greatest", "highest")):
        frontier.add_argument(
            f"--{word}", action=Wanted, dest="wanted", metavar="COLUMN", help=f"a measure whose {best} value is best"
        )
    return words


def main(given: list[str]) -> int:
    """Draws what the words ask for."""
    words = parser().parse_args(given)
    if words.kind == "frontier" and len(words.wanted or []) != 2:
        raise Fault("a frontier needs two measures: two options of --least and --greatest")
    from . import pictures
    from .results import Results

    results = Results(words.table)
    try:
        match words.kind:
            case "lines":
                pictures.lines(results, words.x, words.of, words.by, words.output)
            case "map":
                pictures.heat(results, words.x, words.y, words.of, words.output)
            case "frontier":
                for key in pictures.frontier(results, words.wanted, words.output):
                    print(", ".join(f"{name} {value}" for name, value in zip(results.parameters, key)))
    except OSError as fault:
        raise Fault(f"{fault.filename or words.output}: {fault.strerror}", Status.FILE) from None
    return Status.DONE
