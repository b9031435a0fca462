"""`tools/reference`: says which pages that are made from sources aren't current, or writes them."""

import pathlib

from ..shared.commandline import Parser
from ..shared.saying import say
from ..shared.status import Status
from . import definitions, front_mib, manual, markdown, mib, program, python, tree

ABOUT = "Says which of the pages that are made from sources aren't current: docs/COMMANDS.md (commands and options), \
docs/man (manual pages), docs/DEFINITIONS.md (definitions of the proof), docs/OBJECTS.md (objects of SNMP), \
docs/PYTHON-REFERENCE.md (the package for Python), \
mibs/ARTERIAL-FRONT-MIB (objects of the front end). With --write they are written."
EPILOG = """examples:
  tools/reference               # status 2 if a page isn't current
  tools/reference --write

Exit status: 0 all pages are current or were written, 1 a file can't be written, 2 a page isn't current."""


def parser() -> Parser:
    """Returns the reader of the arguments."""
    words = Parser("tools/reference", description=ABOUT, epilog=EPILOG)
    words.add_argument("--write", action="store_true", help="write the pages that aren't current")
    return words


def pages(top: pathlib.Path) -> dict[str, str]:
    """Returns all pages by their names from the top of the checkout."""
    help, version, tools = program.read(top), program.version(top), tree.tools()
    found = {"docs/COMMANDS.md": markdown.page(help, tools, tree.scripts())}
    found["docs/DEFINITIONS.md"] = definitions.page(top)
    found["docs/OBJECTS.md"] = mib.page(top)
    found["mibs/ARTERIAL-FRONT-MIB"] = front_mib.text()
    found["docs/PYTHON-REFERENCE.md"] = python.page()
    found |= {f"docs/man/{name}": text for name, text in manual.pages(help, tools, version).items()}
    return found


def stale(top: pathlib.Path) -> dict[str, str | None]:
    """Returns the pages that aren't current, by name: as they should be; None if a page should not be there."""
    made = pages(top)
    there = {str(it.relative_to(top)) for it in top.glob("docs/man/*")}
    found: dict[str, str | None] = {name: None for name in sorted(there - {*made})}
    for name, text in made.items():
        if not (top / name).is_file() or (top / name).read_text(encoding="utf-8") != text:
            found[name] = text
    return found


def main(given: list[str]) -> int:
    """Does what the arguments ask for, and returns the exit status."""
    words = parser().parse_args(given)
    wrong = stale(tree.TOP)
    if not words.write:
        for name in wrong:
            say("reference", f"{name} isn't current: tools/reference --write writes it")
        return Status.REFUSED if wrong else Status.DONE
    for name, text in wrong.items():
        path = tree.TOP / name
        if text is None:
            path.unlink()
            continue
        path.parent.mkdir(exist_ok=True)
        path.write_text(text, encoding="utf-8")
    return Status.DONE
