"""The options of the command `./arterial log`."""

import argparse

from ..shared.clock import at
from ..shared.commandline import Parser, add_json, add_output, add_program, number
from .street import device_option

EPILOG = """examples:
  ./arterial log read day.csv --sheet street.toml -o day.indications      # lines for `arterial judge`
  ./arterial log judge day.csv --sheet street.toml --page day.html        # breaches in words, and a page
  ./arterial log judge day.csv.gz --sheet street.toml --device 1023=1 --device 1024="Oak Ave"
  ./arterial log replay day.csv --sheet street.toml --from 07:00 --to 09:00 -o day.json
  ./arterial run day.json > day.trace
  ./arterial log compare day.csv day.trace --sheet street.toml --page both.html

A log is CSV (also with gzip), or Parquet if Python's package pyarrow is there. docs/LOGS.md has more.
Exit status: 0 done, 1 a file can't be read or written, 2 the arguments or a file are invalid, 8 judge found breaches,
130 Ctrl-C.
"""

def add_reader(commands: "argparse._SubParsersAction[Parser]", name: str, text: str) -> argparse.ArgumentParser:
    """Returns the reader of a command, with the options that all share."""
    found = commands.add_parser(
        name, help=text, description=f"{text[:1].upper()}{text[1:]}.", formatter_class=argparse.HelpFormatter
    )
    found.add_argument("events", metavar="EVENTS", help="the event log: CSV, also with gzip; or Parquet")
    if name == "compare":
        found.add_argument("trace", metavar="TRACE", help="the trace of the bench")
    found.add_argument("--sheet", required=True, metavar="PLAN", help="the plan: a timing sheet, a workbook, a "
                       "scenario or a field file")  # fmt: skip
    found.add_argument("--names", metavar="FILE", help="names of cabinets and phases, if PLAN is a scenario (default: "
                       "street.names.json next to street.json)")  # fmt: skip
    found.add_argument("--device", type=device_option, action="append", default=[], metavar="ID=CABINET",
                       dest="devices", help="the number or name of the cabinet that a device of the log "
                       "represents; repeat it for each device to read (default: the cabinet with the device's number "
                       "or name)")  # fmt: skip
    found.add_argument("--columns", metavar="NAME,..", help="the columns of the log in order: time, device, code, "
                       "parameter, and - for others, as --columns=-,device,time,code,parameter (default: found from "
                       "the header or the first rows)")  # fmt: skip
    found.add_argument("--day-first", action="store_true", default=None, help="dates are written 27/11/2026")
    found.add_argument("--hole", type=number(1, 86_400), default=900, metavar="S", help="if a cabinet has no row for "
                       "this time, its judging begins again afterwards (default: 900)")  # fmt: skip
    return found


def add_judging(found: argparse.ArgumentParser) -> None:
    """Adds what `judge` takes."""
    found.add_argument("--tolerance", type=number(0, 20), default=1, metavar="TICKS", help="how much an interval may "
                       "be shorter or longer than its time (default: 1, since a log rounds both ends)")  # fmt: skip
    found.add_argument("--page", metavar="FILE", help="write a page (.html) that shows the log, with a mark for each "
                       "breach")  # fmt: skip
    add_json(found)
    add_output(found, "the file to write (default: standard output)")
    add_program(found)


def add_span(found: argparse.ArgumentParser) -> None:
    """Adds the times between which a log is taken."""
    found.add_argument("--from", dest="first", type=at, metavar="TIME", help="where to begin, as 07:00 or 07:00:00.5 "
                       "(default: the first row)")  # fmt: skip
    found.add_argument("--to", dest="last", type=at, metavar="TIME", help="where to end (default: the last row)")


def parser() -> Parser:
    """Returns the reader of the options."""
    words = Parser("log", description="Reads event logs of controllers in the field.", epilog=EPILOG)
    commands = words.add_subparsers(dest="command", required=True, metavar="COMMAND", prog="arterial log")
    read = add_reader(commands, "read", "write what the cabinets of a log show, as lines for `arterial judge --joined`")
    add_output(read, "the file to write; further parts are named like it, as day.2.indications", required=True)
    add_judging(add_reader(commands, "judge", "report where a log breaks its plan, in words"))
    replay = add_reader(commands, "replay", "write the traffic of a log as a scenario: detectors, buttons, preempts, "
                        "priority requests, patterns")  # fmt: skip
    add_span(replay)
    replay.add_argument("--priority", type=device_option, action="append", default=[], metavar="N=PHASE", help="the "
                        "phase that priority request N asks for (default: none, such rows are skipped)")  # fmt: skip
    add_output(replay, "the scenario to write: .json", required=True)
    compare = add_reader(commands, "compare", "compare the greens of a log with those of a trace of the bench")
    add_span(compare)
    compare.add_argument("--page", metavar="FILE", help="write a page (.html) with each cabinet of the log next to "
                         "that of the bench")  # fmt: skip
    add_json(compare)
    add_output(compare, "the file to write (default: standard output)")
    return words
