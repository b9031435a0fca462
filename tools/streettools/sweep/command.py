"""The command `./arterial sweep`. What reads studies and runs them is imported once the words are read, because that
takes a while."""

from .words import parser


def main(given: list[str]) -> int:
    """Does what the words ask for, and returns the exit status."""
    if given[:1] == ["measure"]:
        from .given_trace import main as measure

        return measure(given[1:])
    if given[:1] == ["draw"]:
        from .draw import main as draw

        return draw(given[1:])
    if given[:1] == ["best"]:
        from .best.command import main as best

        return best(given[1:])
    if given == ["measures"]:
        from .listing import list_measures

        return list_measures()
    words = parser().parse_args(given)
    from .doing import do

    return do(words)
