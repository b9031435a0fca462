"""The command `./arterial plan`: its options."""

import argparse

from ..shared.clock import daytime
from ..shared.commandline import Parser, add_json, add_output, add_program, number
from . import actions
from .edit import command as editing

EPILOG = """examples:
  ./arterial plan new "Main St & 1st Ave" "Main St & Oak Ave=t" -o street.toml    # a sheet to start from
  ./arterial plan scenario street.toml > street.json       # a sheet as a scenario
  ./arterial plan day street.toml 2026-12-24 -o day.json   # the scenario of a day, by the sheet's day plans
  ./arterial plan sheet street.json > street.toml          # and back, without loss
  ./arterial plan sheet street.toml -o street.xlsx         # the sheet as a workbook, a page for each intersection
  ./arterial plan edit street.toml                         # a page that shows it, and changes it by the mouse
  ./arterial plan check street.toml                        # what is wrong with it, in words
  ./arterial plan check --fix street.toml                  # and the smallest change of splits that corrects it
  ./arterial run < street.json 2>&1 > trace | ./arterial plan explain - street.json
  ./arterial plan picture --pattern 2 -o main.svg street.toml    # rings, barriers, splits, and faults
  ./arterial plan from utdf street.csv > street.toml       # from Synchro
  ./arterial plan from walk main-3rd.walk > main-3rd.toml  # from the text of snmpwalk -On
  ./arterial plan from live 127.0.0.1:10161                # from a controller that answers, as ./cabinet
  ./arterial plan loads old.json new.json                  # the downloads from one plan to the other

A FILE is a sheet (.toml, .xlsx), a scenario or a field file (.json). docs/PLANS.md explains sheets.
Exit status: 0 done, 1 a file can't be read or written, 2 the arguments or a file are invalid, or a check found an
error.
"""
LOADS_EPILOG = """examples:
  ./arterial plan loads old.toml new.toml --round 30                          the loads of a scenario
  ./arterial plan loads old.toml new.toml --sets 127.0.0.1:10161+             what each device would get
  ./arterial plan loads old.toml new.toml --sets 127.0.0.1:10161+ --send      reads all devices, then sets them
  ./arterial plan loads old.toml new.toml --sets 3=127.0.0.1:10163 --only 3 --send

These are the downloads of this bench's cabinets. A real controller doesn't have their objects, and is refused.
"""
DAY_EPILOG = """example:
  ./arterial plan day street.toml 2026-12-24 -o day.json
"""
NEW_EPILOG = """kinds of intersections (default: eight):
  eight     1 2 | 3 4  and  5 6 | 7 8    left turns of both streets have phases
  six       1 2 | 4    and  5 6 | 8      left turns of the main street have phases
  two       2 | 4      and  6 | 8        no left turn has a phase
  t         1 2 | 4    and  6 | -        the side street ends here
  leadlag   1 2 | 3 4  and  6 5 | 7 8    phase 1 leads, phase 5 lags
  split     1 2 | 3 4  and  5 6 | -      the approaches of the side street follow each other

example:
  ./arterial plan new "River Rd & Oak Ave" "River Rd & Ferry Ln=t" "River Rd & Depot St=six" --travel 18,22 \\
      --cycle 100,90 --start 08:50 --minutes 60 --volumes street.volumes.toml -o street.toml
"""
UTDF_EPILOG = """examples:
  ./arterial plan from utdf street.csv --volumes street.volumes.toml -o street.toml
  ./arterial plan from utdf LAYOUT.CSV LANES.CSV PHASING.CSV TIMING.CSV VOLUME.CSV -o street.toml
"""
OUTPUT = "where to write (default: standard output)"
FILE = "a sheet (.toml, .xlsx), a scenario or a field file (.json); - is standard input"


def add(parts, name: str, does, text: str, more: str = "") -> argparse.ArgumentParser:
    """Returns a part of the command."""
    part = parts.add_parser(
        name,
        help=text,
        description=text[:1].upper() + text[1:] + ".",
        epilog=more,
        formatter_class=argparse.RawDescriptionHelpFormatter,
    )
    part.set_defaults(does=does)
    return part


def add_file(part: argparse.ArgumentParser) -> None:
    """Adds a file that is read, and its names."""
    part.add_argument("file", metavar="FILE", help=FILE)
    part.add_argument(
        "--names", metavar="NAMES", help="the names of a scenario (default: street.names.json next to street.json)"
    )


def add_scenario(part: argparse.ArgumentParser) -> None:
    """Adds where a scenario and its names are written."""
    add_output(part, "where to write; the names go to a file next to it (default: standard output)", metavar="OUTPUT")
    part.add_argument("--field", action="store_true", help="write a field file, with the detectors")
    part.add_argument("--names-out", metavar="NAMES", help="where to write the names (default: next to the output)")


def numbers(least: int, most: int):
    """Returns a reader of whole numbers that are separated by commas."""
    one = number(least, most)

    def read(text: str) -> list[int]:
        return [one(word.strip()) for word in text.split(",")]

    setattr(read, "takes", f"whole numbers {least:,} to {most:,}, separated by commas")
    return read


def add_start(parts) -> None:
    """Adds the part that writes a sheet to start from."""
    part = add(
        parts, "new", actions.to_new, "write a sheet to start from: a street of usual intersections", NEW_EPILOG
    )
    part.add_argument(
        "intersections", metavar="NAME[=KIND]", nargs="+", help="each intersection, from west to east, and its kind"
    )
    part.add_argument("--title", help="the name of the street (default: the first name up to ' & ')")
    part.add_argument(
        "--travel", type=numbers(1, 255), default="20", metavar="SECONDS",
        help="travel times from each intersection to the next, as 18,22; one number applies to all (default: 20)",
    )  # fmt: skip
    part.add_argument(
        "--cycle", type=numbers(30, 255), default="90", metavar="SECONDS",
        help="cycles of the patterns 1, 2, .., as 100,90 (default: 90). The run is divided among them",
    )  # fmt: skip
    part.add_argument(
        "--speed", type=number(15, 65), default=40, metavar="MPH", help="speed on the main street (default: 40)"
    )
    part.add_argument(
        "--start", type=daytime, default="07:00", metavar="TIME",
        help="the time of day at which the run starts (default: 07:00)",
    )  # fmt: skip
    part.add_argument(
        "--minutes", type=number(1, 1440), default=60, metavar="N", help="the length of the run (default: 60)"
    )
    part.add_argument("--volumes", metavar="FILE", help="where to write volumes, for `arterial cosim queues`")
    add_output(part, OUTPUT, metavar="OUTPUT")


def add_conversions(parts) -> None:
    """Adds the parts that turn sheets into scenarios and back."""
    part = add(parts, "scenario", actions.to_scenario, "write the scenario of a sheet")
    add_file(part)
    add_scenario(part)
    part = add(parts, "day", actions.to_day, "write the scenario of a day, by the day plans of a sheet", DAY_EPILOG)
    part.add_argument("file", metavar="SHEET", help="a sheet with day plans")
    part.add_argument("date", metavar="DATE", help="the day, as 2026-12-24")
    part.set_defaults(names=None)
    add_scenario(part)
    part = add(
        parts, "sheet", actions.to_sheet, "write the sheet of a scenario; a workbook if OUTPUT ends in .xlsx"
    )
    add_file(part)
    add_output(part, OUTPUT, metavar="OUTPUT")


def add_products(parts) -> None:
    """Adds the parts that make a picture or downloads of plans."""
    part = add(
        parts,
        "picture",
        actions.draw,
        "draw a pattern of an intersection: rings, barriers, splits, what each phase needs, what is wrong",
    )
    add_file(part)
    add_output(part, "the picture: .svg, .png or .pdf", metavar="OUTPUT", required=True)
    part.add_argument(
        "--intersection", default="1", metavar="NAME",
        help="which intersection of the file, by number or name (default: 1)",
    )
    part.add_argument(
        "--pattern", type=number(0, 48), default=1, metavar="N", help="which pattern; 0 is free operation (default: 1)"
    )
    part = add(
        parts,
        "loads",
        actions.do_loads,
        "write the downloads that bring cabinets from one plan to another, or send them",
        LOADS_EPILOG,
    )
    part.add_argument("old", metavar="OLD", help=FILE)
    part.add_argument("new", metavar="NEW", help="the same")
    when = part.add_mutually_exclusive_group()
    when.add_argument(
        "--round", type=number(1, 86_400), default=1, help="the round in which they are sent (default: 1)"
    )
    when.add_argument(
        "--at", type=daytime, metavar="TIME",
        help="the time of day at which they are sent, as 07:15:00",
    )
    part.add_argument(
        "--flash", action="store_true", help="the cabinets are in flash then, so rings and enabled phases may change"
    )
    part.add_argument(
        "--only", action="append", metavar="NAME", help="only this intersection, by number or name; may be repeated"
    )
    add_sending(part)
    add_output(part, OUTPUT, metavar="OUTPUT")


def add_sending(part: argparse.ArgumentParser) -> None:
    """Adds the words that bring downloads to devices."""
    part.add_argument(
        "--sets",
        metavar="ADDRESS",
        action="append",
        help="where the devices are: HOST:PORT+ counts ports up from intersection 1, as `arterial street --ports`; "
        "N=HOST:PORT is the device of intersection N; may be repeated. Prints what each device would get, and sets "
        "nothing",
    )
    part.add_argument(
        "--send", action="store_true", help="with --sets: read each device, refuse one that isn't the intersection's, "
        "set the values, and read them back",
    )  # fmt: skip
    part.add_argument(
        "--by-address", action="store_true", help="with --send: if neither names nor tables distinguish devices, "
        "identify them by their addresses",
    )  # fmt: skip
    part.add_argument(
        "--id", type=number(1, 2_000_000_000), default=1,
        help="the id of the first download of a device, or the next one that it accepts (default: 1)",
    )  # fmt: skip
    part.add_argument("--community", default="public", help="the community for --send (default: public)")
    part.add_argument("--anywhere", action="store_true", help="also set devices that are not on this machine")


def add_edit(parts) -> None:
    """Adds the part that opens the editor."""
    text = "open a page in the browser that shows a sheet and changes it"
    part = add(parts, "edit", editing.do_edit, text, editing.EPILOG)
    editing.add_options(part)


def add_checks(parts) -> None:
    """Adds the parts that report what is wrong."""
    part = add(
        parts,
        "check",
        actions.do_check,
        "report all that is wrong with a plan, in words; status 2 if the program refuses it",
    )
    add_file(part)
    add_json(part)
    part.add_argument(
        "--fix",
        action="store_true",
        help="propose the smallest change of splits for patterns that break rule 17, 18 or 19, or in which a phase "
        "may be skipped after a lagging phase",
    )
    add_program(part)
    add_output(part, "with --fix: where to write the corrected plan, .json, .toml or .xlsx", metavar="OUTPUT")
    part = add(parts, "explain", actions.do_explain, "explain what a line of the program says of a plan")
    part.add_argument(
        "line",
        metavar="LINE",
        help="as 'scenario: cabinet 1 breaks rule 18 at row 1', or - for lines on standard input",
    )
    add_file(part)


def add_exchange(parts) -> None:
    """Adds the parts that speak with Synchro and with controllers."""
    text = "write the sheet of a UTDF file, of an SNMP walk, or of a controller that answers"
    origins = parts.add_parser("from", help=text, description=f"{text[:1].upper()}{text[1:]}.").add_subparsers(
        dest="origin", metavar="ORIGIN", required=True
    )
    part = add(
        origins,
        "utdf",
        actions.from_utdf,
        "write the sheet of UTDF files of Synchro, version 6 to 8, and their volumes; fields that can't be imported "
        "are listed",
        UTDF_EPILOG,
    )
    part.add_argument("files", metavar="FILE", nargs="+", help="the file, comma-separated; or the files of one street")
    part.add_argument("--volumes", metavar="FILE", help="where to write the volumes, for `arterial cosim queues`")
    add_output(part, OUTPUT, metavar="OUTPUT")
    part = add(
        origins,
        "walk",
        actions.from_walk,
        "write the sheet of controllers (NTCIP 1202) from texts of snmpwalk -On",
    )
    part.add_argument("files", metavar="FILE", nargs="+", help="a text for each intersection")
    add_output(part, OUTPUT, metavar="OUTPUT")
    part = add(origins, "live", actions.from_live, "walk an agent by SNMP version 1, and write its sheet")
    part.add_argument(
        "host",
        metavar="HOST[:PORT]",
        nargs="?",
        default="127.0.0.1:10161",
        help="the agent (default: 127.0.0.1:10161, the address of ./cabinet)",
    )
    part.add_argument("--community", default="public", help="the community (default: public)")
    part.add_argument("--anywhere", action="store_true", help="allow a host other than this machine")
    add_output(part, OUTPUT, metavar="OUTPUT")
    add_aims(parts)


def add_aims(parts: "argparse._SubParsersAction[argparse.ArgumentParser]") -> None:
    """Adds the parts that write for other software."""
    text = "write a plan for other software"
    part = parts.add_parser("to", help=text, description=f"{text[:1].upper()}{text[1:]}.")
    aims = part.add_subparsers(dest="aim", metavar="AIM", required=True)
    part = add(aims, "utdf", actions.to_utdf, "write a street as UTDF, version 8: nodes, links, lanes, a timing plan")
    add_file(part)
    part.add_argument("--volumes", metavar="FILE", help="the file of volumes of the street (docs/QUEUES.md)")
    part.add_argument(
        "--pattern", type=number(1, 48), default=1, help="the pattern that is the timing plan (default: 1)"
    )
    add_output(part, OUTPUT, metavar="OUTPUT")


def parser() -> argparse.ArgumentParser:
    """Returns the reader of the options."""
    about = "Converts timing sheets to scenarios and back, and reports what is wrong with them in words."
    whole = Parser("plan", description=about, epilog=EPILOG)
    parts = whole.add_subparsers(dest="part", metavar="COMMAND", required=True)
    add_start(parts)
    add_conversions(parts)
    add_edit(parts)
    add_products(parts)
    add_checks(parts)
    add_exchange(parts)
    return whole


def main(words: list[str]) -> int:
    """Runs the command, and returns the exit status."""
    given = parser().parse_args(words)
    return int(given.does(given))
