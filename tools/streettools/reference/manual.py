"""The manual pages: `arterial.1` with the program's commands, and one for each tool."""

import re
import textwrap
from collections.abc import Iterable, Iterator

from .. import words
from ..shared.status import MEANINGS
from .program import Help, plain
from .tree import Command, pieces

EXAMPLES = (
    "./arterial run scenarios/one-cabinet.json",
    "./arterial run scenarios/detectors.json | grep '^F' | head",
    "./arterial run scenarios/night-download.json | ./arterial check",
    "./arterial overlaps --cabinet 1 --parents 0203 --trail 5 --yellow 30 --red 10 trace",
    "./arterial live < scenarios/session.dialogue",
    "./arterial run scenarios/three-rounds.json | ./arterial judge",
    "./arterial band scenarios/street.bands",
    "./arterial respond scenarios/morning-peak.field.json | ./arterial run",
    "./arterial generate --seed 1 --cabinets 4 --rounds 90 | ./arterial run",
)
LAUNCHER = (
    "The launcher ./arterial accepts the name of a file after run, check, overlaps, judge, band and respond, in place "
    "of standard input. arterial COMMAND --help shows the help of one command. As long as no proved program exists, "
    "the unproved program answers, and a line on standard error says so."
)


def escaped(text: str) -> str:
    """Returns a text in which roff reads no request."""
    text = text.replace("\\", "\\e").replace("-", "\\-").replace("'", "\\(aq").replace("`", "\\(ga")
    text = text.replace("^", "\\(ha").replace("~", "\\(ti")
    return re.sub(r"^\.", r"\\&.", text, flags=re.M)


def sentences(text: str) -> str:
    """Returns a paragraph, each sentence in a line, as roff wants it."""
    parts = re.split(r"(?<=[.:;])\s+(?=[A-Z\"(])", plain(text))
    return "\n".join(escaped(textwrap.fill(it, 70, break_long_words=False, break_on_hyphens=False)) for it in parts)


def heading(name: str, about: str, version: str) -> Iterator[str]:
    """Yields the beginning of a page."""
    yield '.\\" Made by tools/reference --write: do not edit.'
    yield f'.TH {escaped(name.upper())} 1 "" "{version}" "User Commands"'
    yield f".SH NAME\n{escaped(name)} \\- {escaped(about)}"


def verbatim(lines: Iterable[str]) -> str:
    """Returns lines as they are."""
    return ".PP\n.RS 4\n.nf\n" + "\n".join(escaped(it) for it in lines) + "\n.fi\n.RE"


def item(name: str, *paragraphs: str) -> str:
    """Returns a name with what it is."""
    return f".TP\n.B {escaped(name)}\n" + "\n.IP\n".join(sentences(it) for it in paragraphs)


def prose(text: str) -> Iterator[str]:
    """Yields a text of a help: its paragraphs, and its examples as they are."""
    for is_block, lines in pieces(text):
        yield verbatim(it[2:] for it in lines) if is_block else ".PP\n" + sentences("\n".join(lines))


def usage(text: str) -> str:
    """Returns how a command is written."""
    return f".B {escaped(text)}"


def described(command: Command) -> Iterator[str]:
    """Yields what a command does, and its options."""
    yield sentences(command.about)
    for it in command.options:
        known = [f"Values: {it.takes}."] * bool(it.takes)
        known += [f"Default: {it.default}."] * (bool(it.default) and "required" not in it.default)
        known += [f"{it.default.capitalize()}."] * ("required" in it.default)
        text = it.text[:1].upper() + it.text[1:]
        yield item(it.name, " ".join([text + "." * (not text.endswith(".")), *known]))


def statuses(rows: Iterable[tuple[int, str]]) -> Iterator[str]:
    """Yields exit statuses."""
    for number, text in rows:
        yield item(str(int(number)), text)


def of_tool(command: Command, does: str, version: str) -> str:
    """Returns the page of a tool."""
    name = command.name.replace(" ", "-")
    leaves = [it for it in command.all() if it.options or not it.parts]
    parts = [*heading(name, does, version), ".SH SYNOPSIS", "\n.br\n".join(usage(it.usage) for it in leaves)]
    parts += [".SH DESCRIPTION", *described(command), *prose(command.more)]
    for it in command.all():
        if it is not command:
            parts += [f".SS {escaped(it.usage)}", *described(it)]
            parts += prose(it.more) if it.more != command.more else ()
    parts += [".SH OPTIONS OF ALL COMMANDS", *common()]
    parts += [".SH EXIT STATUS", *statuses(MEANINGS.items()), ".SH SEE ALSO", ".BR arterial (1)"]
    return "\n".join(filter(None, parts)) + "\n"


def common() -> Iterator[str]:
    """Yields the options that every command of a tool has."""
    yield item("-h", "Show a short help of at most 24 lines.")
    yield item("--help", "Show all help.")
    yield item("--version", "Print the version.")
    yield item("--traceback", "If the tool has a fault, show where.")


def of_program(help: Help, version: str) -> str:
    """Returns the page of the program."""
    about = help.about.removeprefix("arterial: ")
    first = about.partition(".")[0].removeprefix("a ")
    parts = [*heading("arterial", first, version), ".SH SYNOPSIS", "\n.br\n".join(usage(it.usage) for it in help.parts)]
    parts += [".SH DESCRIPTION", sentences(about[:1].upper() + about[1:]), ".PP", sentences(LAUNCHER), ".SH COMMANDS"]
    parts += [item(it.name, *it.about) for it in help.parts]
    parts += [".SH TOOLS", "These are not proved. Each has a page of its own, such as", ".BR arterial\\-look (1)."]
    parts += [item(f"arterial {it.name}", it.does) for it in (*words.TOOLS, words.PROVE, words.TAKE)]
    parts += [".SH EXIT STATUS", *statuses(help.statuses), ".PP", sentences(help.after)]
    parts += [".SS Launcher and tools", *statuses(MEANINGS.items())]
    parts += [".SH EXAMPLES", verbatim(EXAMPLES), ".SH SEE ALSO"]
    parts.append(",\n".join(f".BR arterial\\-{it.name} (1)" for it in words.TOOLS).replace("(1),", "(1),"))
    parts += [".PP", sentences(help.more)]
    return "\n".join(parts) + "\n"


def pages(help: Help, tools: list[Command], version: str) -> dict[str, str]:
    """Returns the pages by the names of their files."""
    found = {"arterial.1": of_program(help, version)}
    for it in words.TOOLS:
        command = next(command for command in tools if command.name == f"arterial {it.name}")
        found[f"arterial-{it.name}.1"] = of_tool(command, it.does, version)
    return found
