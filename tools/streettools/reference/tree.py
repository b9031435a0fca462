"""The commands of the tools as data, read from their argparse parsers: options with units, ranges and defaults."""

import argparse
import importlib
import importlib.machinery
import importlib.util
import pathlib
import re
from collections.abc import Iterator
from dataclasses import dataclass

from .. import words
from ..cosim.command import WORDS as COSIM
from ..shared import short_help

TOP = pathlib.Path(__file__).resolve().parents[3]
"""The top of the checkout."""

MODULES = {
    "look": ["look.words"],
    "why": ["why.command"],
    "log": ["log.words"],
    "plan": ["plan.command"],
    "sweep": ["sweep.words", "sweep.best.words", "sweep.given_trace", "sweep.draw"],
    "cosim": [f"cosim.{module}" for module, _ in COSIM.values()],
    "street": ["street.words"],
    "cabinet": ["cabinet.command"],
    "conform": ["conform.command"],
    "prove": ["launch.prove"],
    "take": ["launch.take"],
}
"""By command, the modules whose `parser()` reads its arguments, in the order of the reference."""

SCRIPTS = ("tools/setup", "tools/release", "tools/install", "tools/package")
"""Scripts of a checkout, in the order of the reference."""

UNITS = {"S": "seconds", "TICKS": "ticks", "M": "metres", "MIB": "MiB", "S,S,..": "seconds"}
"""The unit of an option's value, by the name of the value."""

DEFAULT = re.compile(r"[,;]? ?\(default: ((?:[^()]|\([^()]*\))+)\)")
"""How a help text gives the default."""


@dataclass(frozen=True)
class Option:
    """An option, or an argument: its names with its value, what it does, the values it accepts, its default."""

    name: str
    text: str
    takes: str
    default: str


@dataclass(frozen=True)
class Command:
    """A command: how it is written, what it does, its options, the text after them, the commands below it."""

    name: str
    usage: str
    about: str
    options: tuple[Option, ...]
    more: str
    parts: tuple["Command", ...]

    def all(self) -> Iterator["Command"]:
        """Yields this command, and all below it."""
        yield self
        for it in self.parts:
            yield from it.all()


def pieces(text: str) -> Iterator[tuple[bool, list[str]]]:
    """Yields the paragraphs of a help text, each as lines, and whether it is a block that keeps its lines."""
    for part in re.split(r"\n\n+", text.strip("\n")):
        lines = part.splitlines()
        while lines:
            is_block = lines[0].startswith("  ")
            count = next((at for at, it in enumerate(lines) if it.startswith("  ") != is_block), len(lines))
            yield is_block, lines[:count]
            lines = lines[count:]


def takes(action: argparse.Action) -> str:
    """Returns the values that an option accepts, with their unit, where the parser knows them."""
    if action.nargs == 0 or isinstance(action, argparse._SubParsersAction):
        return ""
    unit = UNITS.get(short_help.value_of(action), "")
    known = ", ".join(map(str, action.choices)) if action.choices else getattr(action.type, "takes", "")
    return " ".join(filter(None, (known, unit)))


def option_of(parser: argparse.ArgumentParser, action: argparse.Action) -> Option:
    """Returns an option as data."""
    text = (action.help or "").replace("%%", "%")
    found = DEFAULT.search(text)
    needed = short_help.is_required(parser, action) if action.option_strings else action.nargs not in ("?", "*")
    groups = [it._group_actions for it in parser._mutually_exclusive_groups if action in it._group_actions]
    is_one = any(sum(map(short_help.is_shown, group)) > 1 for group in groups)
    default = found[1] if found else ("one is required" if is_one else "required") if needed else ""
    return Option(short_help.called(action), DEFAULT.sub("", text, count=1), takes(action), default)


def command_of(parser: argparse.ArgumentParser) -> Command:
    """Returns a command as data."""
    shown = [it for it in parser._actions if short_help.is_shown(it)]
    below = [it for it in shown if isinstance(it, argparse._SubParsersAction)]
    listed = sorted(shown, key=lambda it: short_help.order(parser, it))
    options = tuple(option_of(parser, it) for it in listed if it not in below)
    parts = tuple(command_of(part) for it in below for part in it.choices.values())
    usage, more = short_help.usage(parser).removeprefix("usage: "), (parser.epilog or "").strip("\n")
    return Command(parser.prog, usage, (parser.description or "").strip(), options, more, parts)


def tool(name: str) -> Command:
    """Returns the command of a tool; one that only hands its words over has no options of its own."""
    parsers = [importlib.import_module(f"streettools.{module}").parser() for module in MODULES[name]]
    first, *others = map(command_of, parsers)
    if first.name == f"arterial {name}":
        return Command(first.name, first.usage, first.about, first.options, first.more, (*first.parts, *others))
    about = next(it.does for it in words.TOOLS if it.name == name)
    usage = f"arterial {name} COMMAND .."
    return Command(f"arterial {name}", usage, about[:1].upper() + about[1:] + ".", (), "", (first, *others))


def script(name: str) -> Command:
    """Returns the command of a script of a checkout."""
    if name == "tools/release":
        return command_of(importlib.import_module("streettools.launch.release").parser())
    path = TOP / name
    text = path.read_text(encoding="utf-8")
    if text.startswith("#!/bin/sh"):
        found = re.search(r'^usage="usage: (\S.*)\n((?:.*\n)*?.*)"$', text, re.M)
        if not found:
            raise ValueError(f"{name} has no usage text")
        remark = re.search(r"^# (.*(?:\n# .*)*)", text, re.M)
        about = " ".join(remark[1].replace("\n# ", " ").split()) if remark else ""
        return Command(name, found[1], about, (), found[2].replace("\\$", "$"), ())
    loader = importlib.machinery.SourceFileLoader(path.name, str(path))
    spec = importlib.util.spec_from_loader(path.name, loader)
    assert spec is not None
    module = importlib.util.module_from_spec(spec)
    loader.exec_module(module)
    return command_of(module.parser())


def tools() -> list[Command]:
    """Returns the commands of all tools."""
    return [tool(name) for name in MODULES]


def scripts() -> list[Command]:
    """Returns the scripts of a checkout."""
    return [script(name) for name in SCRIPTS]
