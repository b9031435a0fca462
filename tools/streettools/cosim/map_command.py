"""`./arterial cosim map`: a map of a network, and the questions that are left."""

import argparse
import pathlib

from ..shared import files
from ..shared.commandline import Parser, add_output
from ..shared.saying import say, say_replaced
from ..shared.status import Status
from ..shared.tables import Tables
from . import network
from .compass import WAYS
from .drive import read_config
from .map_making import LENGTH, Maker, Said

EXAMPLES = """\
examples:
  ./arterial cosim map street.net.xml -o map.toml              # by the approaches' compass and turns
  ./arterial cosim map street.sumocfg --main E -o map.toml     # phase 2 drives east at each signal
  ./arterial cosim map street.net.xml --scenario street.json   # only phases that its cabinets have
  ./arterial cosim map street.net.xml --phase 'c0 SB2T=8'      # answers a question that was asked
  ./arterial cosim map street.net.xml --permissive             # left turns also yield under the opposite phase

If a network has SUMO's NEMA logic, its phases are used. A phase that can't be decided is "?" in the map, with a
question on standard error; `run` refuses a map with a "?" left. The tool also asks about movements that cross and may
be green at once: a phase that you give never makes a movement yield; --yields does. docs/COSIM.md explains maps."""


def answer(text: str) -> tuple[tuple[str, str], int]:
    """Reads an answer: a signal, a movement, its phase."""
    place, _, phase = text.rpartition("=")
    signal, _, movement = place.partition(" ")
    if not (signal and movement and phase.isdigit() and 1 <= int(phase) <= 16):
        raise argparse.ArgumentTypeError(f"{text}: as in 'c0 EBL=5'")
    return (signal, movement), int(phase)


def place(text: str) -> tuple[str, str]:
    """Reads a signal and a movement."""
    signal, _, movement = text.partition(" ")
    if not (signal and movement):
        raise argparse.ArgumentTypeError(f"{text}: as in 'c0 EBL'")
    return signal, movement


def parser() -> argparse.ArgumentParser:
    """Returns the reader of the options."""
    words = Parser(
        "cosim map",
        description="Writes the map of a SUMO network: the phase of each link, and the detectors before stop lines.",
        epilog=EXAMPLES,
    )
    words.add_argument("network", type=pathlib.Path, help="the network (*.net.xml), or a configuration that names it")
    add_output(words, "the map to write (default: standard output)", metavar="MAP")
    words.add_argument("--main", choices=list(WAYS), help="the direction of travel of phase 2, at each signal")
    words.add_argument("--phase", type=answer, action="append", default=[], metavar="'SIGNAL MOVEMENT=N'",
                       help="the phase of a movement of a signal; may be repeated")  # fmt: skip
    words.add_argument("--yields", type=place, action="append", default=[], metavar="'SIGNAL MOVEMENT'",
                       help="let a movement give way to those that it crosses; may be repeated")  # fmt: skip
    words.add_argument("--scenario", type=pathlib.Path, metavar="FILE",
                       help="the cabinets: the map has only phases that are enabled in them")  # fmt: skip
    words.add_argument(
        "--permissive", action="store_true", help="left turns with their own phase also yield under the opposite one"
    )
    words.add_argument("--length", type=float, default=LENGTH, metavar="M", help="length of a detector (default: 15)")
    return words


def main(given: list[str]) -> int:
    """Writes a map, and says what is left to be asked."""
    words = parser().parse_args(given)
    path = read_config(words.network).network if words.network.suffix == ".sumocfg" else words.network
    main_way = None if words.main is None else WAYS.index(words.main)
    said = Said(main_way, dict(words.phase), frozenset(words.yields), words.permissive, words.length, tables(words))
    maker = Maker(network.read(path), said)
    text = maker.text(path.name)
    if words.output is not None:
        say_replaced("cosim", pathlib.Path(words.output))
    with files.output(words.output) as out:
        out.write(text)
    for it in maker.questions:
        say("cosim", it)
    return Status.REFUSED if maker.questions else Status.DONE


def tables(words: argparse.Namespace) -> list[Tables]:
    """Returns the tables of the cabinets, none where no scenario is given."""
    if words.scenario is None:
        return []
    from .queues.checks import tables_of  # here, since they take a while
    from .run import read_scenario

    return list(tables_of(read_scenario(words.scenario)).values())
