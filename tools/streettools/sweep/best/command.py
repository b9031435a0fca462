"""The command `./arterial sweep best`. What runs a search is imported once the words are read, because that takes a
while."""

from .words import parser


def main(given: list[str]) -> int:
    """Does what the words ask for, and returns the exit status."""
    words = parser().parse_args(given)
    from .doing import do

    return do(words)
