"""Texts that the program prints, read from its source, for the time before there is a program."""

import pathlib
import re


def text(top: pathlib.Path, file: str, name: str) -> str | None:
    """Returns the constant text of this name in a source file, None if it isn't there in a known form."""
    try:
        source = (top / "crates" / file).read_text()
    except OSError:
        return None
    found = re.search(rf'^(?:pub )?const {name}: &str = "((?:[^"\\]|\\.|\\\n)*)";', source, re.M)
    if not found:
        return None
    text = re.sub(r"\\\n\s*", "", found[1])
    if set(re.findall(r"\\(.)", text)) - set('n"\\'):
        return None
    return re.sub(r"\\(.)", lambda it: "\n" if it[1] == "n" else it[1], text)


def help(top: pathlib.Path) -> str | None:
    """Returns what `arterial --help` prints."""
    return text(top, "station/src/help.rt", "HELP")


def version(top: pathlib.Path) -> str | None:
    """Returns what `arterial --version` prints."""
    return text(top, "station/src/help.rt", "VERSION")


def usage(top: pathlib.Path) -> str | None:
    """Returns the line for words that aren't a command, without its end."""
    line = text(top, "arterial/src/reporting.rt", "USAGE")
    return line and line.removesuffix("\n")
