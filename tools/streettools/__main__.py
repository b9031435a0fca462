"""Runs a command of the tools: `python3 -m streettools look ..`, or `python3 tools/streettools look ..` with no
installation."""

import os
import signal
import sys

# the launcher's shell starts Python with Ctrl-C ignored, which avoids a traceback of Python's own start
signal.signal(signal.SIGINT, signal.SIG_DFL)

if __name__ == "__main__" and not __package__:
    sys.path[0] = os.path.dirname(os.path.dirname(os.path.realpath(__file__)))

from streettools import words  # noqa: E402
from streettools.shared.status import Status  # noqa: E402


def main(given: list[str] | None = None) -> int:
    """Runs the command that the first argument names, and returns its exit status."""
    given = sys.argv[1:] if given is None else given
    if not given or given[0] in ("-h", "--help"):
        print("usage: streettools COMMAND ..\n")
        for word in words.tools():
            print(f"    {word.name:10} {word.does}")
        return Status.DONE
    if not words.is_word(given[0]):
        near = words.meant(given[0])
        more = f"; did you mean {near}?" if near else ""
        print(f"streettools: unknown command {given[0]!r}{more}", file=sys.stderr)
        return Status.REFUSED
    signal.signal(signal.SIGINT, signal.default_int_handler)
    return words.run(given)


if __name__ == "__main__":
    sys.exit(main())
