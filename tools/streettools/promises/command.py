"""`edits/promises`: which statements of the contracts changed since they were last read, and what they were."""

import argparse
import pathlib
import shutil
import subprocess
import sys
import tempfile
import textwrap

from streettools.shared.saying import say
from streettools.shared.status import Status

from . import reached, record

ABOUT = """Shows the statements of the program's promises that changed since they were last recorded, old and new side
by side. A promise is a clause of the top call, or a definition that such a clause reaches: what a safe street is, what
it means that coordination is met, which text is a trace. A proof holds a body to its statement. Nothing holds a
statement but its reader, so a test fails until a change of one is recorded.

A statement is recorded as a digest of its words, in edits/promises.sums: comments and layout don't count."""

EXAMPLES = """examples:
  edits/promises                        what changed
  edits/promises --write                what changed, and then record it
  edits/promises --write --quiet        record it without showing it
  edits/promises --list                 the places of all statements, with their lines

Exit status: 0 nothing changed or all is recorded, 1 something changed, 2 invalid arguments."""

NEAR = 2
"""How many equal lines are shown around lines that differ."""


def beside(old: str, new: str, width: int) -> str:
    """Returns two texts side by side in `width` columns: the lines that differ, and those near them."""
    with tempfile.TemporaryDirectory() as folder:
        files = [pathlib.Path(folder, name) for name in ("old", "new")]
        for file, text in zip(files, (old, new)):
            lines = [textwrap.wrap(line, width // 2 - 3, subsequent_indent="    ") for line in text.splitlines()]
            file.write_text("".join(f"{it}\n" for line in lines for it in line), encoding="utf-8")
        words = ["diff", "--side-by-side", f"--width={width}", "--expand-tabs", *map(str, files)]
        rows, apart = told(*words), told(*words, "--suppress-common-lines")
    return "".join(f"{row}\n" for row in near(rows, apart))


def told(*words: str) -> list[str]:
    """Returns the lines that a command prints."""
    return subprocess.run(words, stdout=subprocess.PIPE, text=True, check=False).stdout.splitlines()


def near(rows: list[str], apart: list[str]) -> list[str]:
    """Returns those of the rows that differ, which are given in order, and the rows near them; two dots for others."""
    left, kept = list(reversed(apart)), set[int]()
    for at, row in enumerate(rows):
        if left and row == left[-1]:
            left.pop()
            kept.update(range(at - NEAR, at + NEAR + 1))
    shown: list[str] = []
    for at, row in enumerate(rows):
        if at in kept:
            shown.append(row)
        elif not shown or shown[-1] != "..":
            shown.append("..")
    return shown


def shown(top: pathlib.Path, place: str, old: str | None, new: str | None, width: int) -> str:
    """Returns the statement of a place as it was recorded, by its digest, next to the present one."""
    if old is None:
        return f"{place}: new, {len((new or '').splitlines())} lines\n"
    before = record.before(top, place, old)
    if before is None:
        return f"{place}: the statement that was recorded is not in git's history. It is now:\n{new or 'gone'}\n"
    return f"{place}:\n{beside(before, new or '', width)}\n"


def main(words: list[str], top: pathlib.Path = record.TOP) -> int:
    """Shows what changed, records it where asked, and returns the exit status."""
    asked = argparse.ArgumentParser(
        prog="edits/promises",
        description=ABOUT,
        epilog=EXAMPLES,
        formatter_class=argparse.RawDescriptionHelpFormatter,
    )
    asked.add_argument("--write", action="store_true", help="record what changed")
    asked.add_argument("--quiet", action="store_true", help="name the places that changed, and don't show them")
    asked.add_argument("--list", action="store_true", help="name the places of all statements, and do nothing else")
    given = asked.parse_args(words)
    statements = reached.Statements(top)
    if given.list:
        for place in sorted(statements):
            print(f"{len(statements[place].splitlines()):6} {place}")
        return Status.DONE
    try:
        old = record.read(top / record.PROMISES)
    except record.Unread as fault:
        say("edits/promises", fault)
        return Status.REFUSED
    new = record.promises(statements)
    changed, width = record.changed(old, new), shutil.get_terminal_size((160, 24)).columns
    for place in changed:
        if given.quiet:
            print(place)
        else:
            sys.stdout.write(shown(top, place, old.get(place), statements.get(place), width))
    if given.write:
        record.write(top / record.PROMISES, new)
        say("edits/promises", f"{len(changed)} statements that changed are recorded, of {len(new)}")
        return Status.DONE
    return Status.FILE if changed else Status.DONE
