"""The options of the command `./look`."""

import argparse
import os

from ..shared.clock import at, dated, daytime
from ..shared.commandline import Parser, add_json, add_output

EPILOG = """examples:
  ./look report trace                                      # each phase's greens and how they ended, replies, downloads
  ./look rings --from 90 --to 210 -o rings.svg trace       # both rings of cabinet 1 over two minutes
  ./look rings --names street.names.json -o rings.svg trace   # with names, and without placeholder phases
  ./look coordination --start 06:30:00 --travel 20,20,20 -o street.svg trace
  ./look page --travel 20,20,20 -o street.html trace       # one file for a browser: any second of any cabinet
  ./look events --start 2026-11-27T06:00:00 -o log.csv trace
  ./look purdue OUT --cabinet 2 -o purdue.svg              # of a run with traffic; also paths, splits, queues

If a proved program exists, `arterial check` also checks the text, and a text that isn't a trace is refused.
Exit status: 0 done, 1 a file can't be read or written, or a package is missing, 2 the arguments or the text are
invalid, 130 Ctrl-C.
"""
STARTED = (
    "the time of tick 0, as 06:30:00 or 2026-11-27T06:30:00: the time axis then has the time of day (default with "
    "names: the clock of the run at tick 0)"
)
CABINET = "the cabinet, by its number or by its intersection's name (default: 1)"
FROM = (
    "where to begin: seconds, as 90; ticks, as 900t; a time of day, as 07:05 or 07:05:00; without times of day on the "
    "axis also 1:30, minutes and seconds since the start"
)


def numbers(text):
    """Reads cabinets, as `1,2,3`."""
    return [int(it) for it in text.split(",")]


def cabinets(text):
    """Reads cabinets by their numbers or names, as `1,2,3` or `Oak,Elm`."""
    return [it.strip() for it in text.split(",") if it.strip()]


def phases(text):
    """Reads a phase of ring 1 and one of ring 2, as `2,6`."""
    pair = tuple(numbers(text))
    if len(pair) != 2 or not all(1 <= it <= 16 for it in pair):
        raise ValueError
    return pair


def travel(text):
    """Reads times of travel in seconds, as `20,17.5`, and returns ticks."""
    ticks = [round(10 * float(it)) for it in text.split(",")]
    if any(not 0 <= it <= 864_000 for it in ticks):
        raise ValueError
    return ticks


def picture(text):
    """Reads the name of a picture, whose ending gives its form."""
    if os.path.splitext(text)[1] not in (".svg", ".png", ".pdf"):
        raise argparse.ArgumentTypeError("the picture's name must end in .svg, .png or .pdf")
    return text


def page(text):
    """Reads the name of a page."""
    if os.path.splitext(text)[1] not in (".html", ".htm"):
        raise argparse.ArgumentTypeError("the page's name must end in .html")
    return text


def add_reader(commands, name, text):
    """Returns a command's reader, with the options that all share."""
    found = commands.add_parser(name, help=text, description=f"{text[:1].upper()}{text[1:]}.",
                                formatter_class=argparse.HelpFormatter)  # fmt: skip
    found.add_argument("trace", nargs="?", help="the trace's file (default: standard input, as with -)")
    found.add_argument("--names", metavar="FILE", help="names of cabinets and phases: a timing sheet, or what "
                       "`arterial plan scenario` writes (default: street.names.json for street.trace); placeholder "
                       "phases are left out. They also give start and travel")  # fmt: skip
    found.add_argument("--no-check", action="store_true", help="don't check the text with `arterial check`")
    return found


def add_street(found):
    """Adds the options that choose a street."""
    found.add_argument(
        "--cabinets", type=cabinets, metavar="NAME,..", help="the cabinets in the street's order, by number or name "
        "(default: all)",
    )
    found.add_argument("--travel", type=travel, metavar="S,S,..",
                       help="seconds from each cabinet to the next, for the bands (default: as in the file "
                       "of names)")  # fmt: skip


def add_picture(commands, name, text):
    """Returns the reader of a command that draws, with the options that these share."""
    found = add_reader(commands, name, text)
    add_output(found, "the picture: .svg, .png or .pdf", type=picture, required=True)
    found.add_argument("--from", dest="first", type=at, default=0, metavar="TIME", help=FROM + " (default: 0)")
    found.add_argument("--to", dest="last", type=at, metavar="TIME", help="where to end, in the same forms")
    found.add_argument("--start", type=daytime, metavar="TIME", help=STARTED)
    return found


def add_text(commands, name, text):
    """Returns the reader of a command that writes a text."""
    found = add_reader(commands, name, text)
    add_output(found, "the file to write (default: standard output)")
    return found


def add_rings(commands):
    """Adds the command that draws a cabinet's rings."""
    found = add_picture(
        commands,
        "rings",
        "both rings of a cabinet: greens, clearances, walks, barriers, modes (180 s if --to isn't given)",
    )
    found.add_argument("--cabinet", metavar="NAME", help=CABINET)


def add_coordination(commands):
    """Adds the command that draws a street."""
    found = add_picture(
        commands, "coordination",
        "the coordinated greens of several cabinets over time, with progression bands (300 s if --to isn't given)",
    )  # fmt: skip
    add_street(found)
    found.add_argument("--planned", metavar="FILE",
                       help="draw the widest bands of the plan as dashed outlines; FILE is the output of `arterial "
                       "band`")  # fmt: skip
    found.add_argument(
        "--phases", type=phases, metavar="P,P", help="the phases to show (default: the coordinated ones)"
    )


def add_offset(commands):
    """Adds the command that draws how a cabinet reaches its offset."""
    found = add_picture(commands, "offset", "how a cabinet reaches its offset, and what disturbs it")
    found.add_argument("--cabinet", metavar="NAME", help=CABINET)


def add_page(commands):
    """Adds the command that writes a page."""
    found = add_reader(
        commands, "page",
        "one file that a browser opens without a network: all cabinets, the street and any rings, to zoom and "
        "search in",
    )  # fmt: skip
    add_output(found, "the page: .html", type=page, required=True)
    found.add_argument("--start", type=daytime, metavar="TIME", help=STARTED)
    add_street(found)


def add_report(commands):
    """Adds the command that writes a report."""
    found = add_text(
        commands, "report",
        "services, greens and how they ended, walks, modes, offsets, replies, refused Sets, downloads, notes",
    )  # fmt: skip
    add_json(found)


def add_events(commands):
    """Adds the command that writes an event log."""
    found = add_text(commands, "events", "the event log in the Indiana hi-resolution codes, as CSV (docs/EVENTS.md)")
    found.add_argument("--start", type=dated, required=True, metavar="TIME",
                       help="the time of tick 0, as 2026-11-27T06:00:00; or the date, as 2026-11-27, with the time of "
                       "the run's clock")  # fmt: skip


COMMANDS = (add_rings, add_coordination, add_offset, add_page, add_report, add_events)


def parser():
    """Returns the reader of the options."""
    words = Parser("look", description="Shows a trace that `arterial run` wrote. Ticks are 0.1 s.", epilog=EPILOG)
    commands = words.add_subparsers(dest="command", required=True, metavar="COMMAND", prog="arterial look")
    for add in COMMANDS:
        add(commands)
    return words
