"""What follows the usage line if the arguments are wrong."""

from streettools import words


def of(given: list[str]) -> str:
    """Returns a line that names --help, and the command that may have been meant."""
    first = given[0] if given else ""
    if first in words.PROGRAM:
        return f"arterial: `arterial {first} --help` shows the arguments of {first}"
    near = words.meant(first)
    return "arterial: `arterial --help` lists all commands" + (f"; did you mean `arterial {near}`?" if near else "")
