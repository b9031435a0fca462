"""The short help of a command, which `-h` prints: at most 20 lines of at most 100 columns. `--help` prints all."""

import argparse
import textwrap

LINES, COLUMNS, LEFT = 20, 100, 26
"""How many lines the short help has at most, how wide they are, and the width of their left column."""

EXAMPLES = 3
"""How many examples are shown at most."""

OWN = ("-h", "--help", "--version", "--traceback")
"""Options that every command has: they are shown last, in the line that names `--help`."""


def is_shown(action: argparse.Action) -> bool:
    """Returns whether an option or argument is listed: old names and what every command has aren't."""
    return action.help is not argparse.SUPPRESS and not set(action.option_strings) & {*OWN}


def called(action: argparse.Action) -> str:
    """Returns an option with its value, or an argument, as it is listed."""
    if not action.option_strings:
        return value_of(action)
    value = value_of(action) if action.nargs != 0 else ""
    return " ".join(filter(None, (", ".join(action.option_strings), value)))


def value_of(action: argparse.Action) -> str:
    """Returns the name of the value that an option or an argument takes."""
    if isinstance(action.metavar, str):
        name = action.metavar
    elif action.choices is not None and not isinstance(action, argparse._SubParsersAction):
        name = "{" + ",".join(map(str, action.choices)) + "}"
    else:
        name = action.dest.upper() if action.option_strings else action.dest
    return f"{name} .." if action.nargs in ("+", "*") else name


def is_required(parser: argparse.ArgumentParser, action: argparse.Action) -> bool:
    """Returns whether a command needs this option; of a group of options that it needs one, each counts."""
    groups = (it for it in parser._mutually_exclusive_groups if it.required)
    return action.required or any(action in it._group_actions for it in groups)


def usage(parser: argparse.ArgumentParser) -> str:
    """Returns the line that shows how the command is written, without the options that it doesn't need."""
    shown = [it for it in parser._actions if is_shown(it)]
    options = [it for it in shown if it.option_strings]
    groups = [it for it in parser._mutually_exclusive_groups if it.required]
    words = [parser.prog]
    for group in groups:
        names = [brief(it) for it in group._group_actions if is_shown(it)]
        words.append(names[0] if len(names) == 1 else f"({' | '.join(names)})")
    grouped = [it for group in groups for it in group._group_actions]
    words += [brief(it) for it in options if it.required and it not in grouped]
    words += ["[OPTION ..]"] * any(not is_required(parser, it) for it in options)
    for it in (it for it in shown if not it.option_strings):
        words.append(f"[{value_of(it)}]" if it.nargs == "?" else value_of(it))
        words += [".."] * isinstance(it, argparse._SubParsersAction)
    return "usage: " + " ".join(words)


def brief(action: argparse.Action) -> str:
    """Returns an option by its first name, with its value."""
    return f"{action.option_strings[0]} {value_of(action)}" if action.nargs != 0 else action.option_strings[0]


def rows(parser: argparse.ArgumentParser) -> list[str]:
    """Returns a line for each command below this one, argument and option; what is needed comes first."""
    found = []
    for action in sorted(filter(is_shown, parser._actions), key=lambda it: order(parser, it)):
        if isinstance(action, argparse._SubParsersAction):
            found += [row(it.dest, it.help or "") for it in action._choices_actions]
        else:
            found.append(row(called(action), action.help or ""))
    return found


def order(parser: argparse.ArgumentParser, action: argparse.Action) -> int:
    """Returns the place of an option: after arguments and options that are needed."""
    return 2 if action.option_strings and not is_required(parser, action) else 1 if action.option_strings else 0


def row(name: str, text: str) -> str:
    """Returns a line with a name and what it is, cut to the width."""
    head = f"  {name:{LEFT - 4}}  "
    return head + textwrap.shorten(text.replace("%%", "%"), max(COLUMNS - len(head), 20), placeholder=" ..")


def examples(parser: argparse.ArgumentParser) -> list[str]:
    """Returns the first examples of the text after the options."""
    lines = (parser.epilog or "").splitlines()
    start = next((at for at, line in enumerate(lines) if line.startswith("example")), None)
    if start is None:
        return []
    if not lines[start].endswith(":") and ":" in lines[start]:
        return [lines[start]]
    found = []
    for line in lines[start + 1 :]:
        if not line.startswith("  "):
            break
        found.append(line)
    return ["examples:", *(it for it in found if len(it) <= COLUMNS)][: EXAMPLES + 1] if found else []


def about(parser: argparse.ArgumentParser) -> list[str]:
    """Returns the first paragraph of what the command is for, in at most three lines."""
    first = (parser.description or "").strip().partition("\n\n")[0]
    return textwrap.wrap(" ".join(first.split()), COLUMNS, max_lines=3, placeholder=" ..")


def text(parser: argparse.ArgumentParser) -> str:
    """Returns the short help of a command."""
    head = [*textwrap.wrap(usage(parser), COLUMNS, subsequent_indent="       "), *about(parser), ""]
    listed, shown = rows(parser), examples(parser)
    last = f"`{parser.prog} --help` shows all."
    room = LINES - len(head) - 1
    if len(listed) + len(shown) > room:
        shown = shown[: max(0, 2 if len(shown) > 1 else 1)]
    room -= len(shown)
    if len(listed) > room:
        left = len(listed) - room + 1
        listed = [*listed[: room - 1], f"  .. and {left} more"]
    return "\n".join([*head, *listed, *shown, last]) + "\n"


class ShortHelp(argparse.Action):
    """Prints the short help, and ends."""

    def __init__(self, option_strings: list[str], dest: str, **more: object) -> None:
        super().__init__(option_strings, argparse.SUPPRESS, nargs=0, default=argparse.SUPPRESS, help=str(more["help"]))

    def __call__(
        self, parser: argparse.ArgumentParser, space: argparse.Namespace, values: object, option: str | None = None
    ) -> None:
        print(text(parser), end="")
        parser.exit()
