"""Lines on standard error, texts on standard output, and texts from outside that are shown."""

import sys
from typing import TYPE_CHECKING

if TYPE_CHECKING:
    from pathlib import Path  # takes a while


def say(command: str, words: object) -> None:
    """Writes a line, or several, to standard error, in the name of a command."""
    print(f"{command}: " + "\n".join(map(visible, str(words).split("\n"))), file=sys.stderr, flush=True)


def say_replaced(command: str, path: "Path") -> None:
    """Says that a file is there that the command will write over; nothing where it isn't."""
    if path.exists():
        say(command, f"{path} already exists and is replaced")


def visible(text: str) -> str:
    """Returns a text in which each character that a terminal doesn't print (an escape, a line end) is written as
    Python writes it."""
    return text if text.isprintable() else "".join(it if it.isprintable() else ascii(it)[1:-1] for it in text)


def printed(text: str) -> None:
    """Writes a text to standard output; a fault in writing names it."""
    try:
        sys.stdout.write(text)
        sys.stdout.flush()
    except BrokenPipeError:
        raise
    except OSError as fault:
        raise OSError(fault.errno, fault.strerror, "standard output") from None
