"""What a comparison says in words: whether a plan differs from another, by the interval of the difference."""

from collections.abc import Iterable, Iterator

from .comparison import Row, Terms
from .totals import Mean

SAME, LESS, MORE, UNKNOWN = "no real difference", "less", "more", "unknown"


def verdict(more: Mean | None) -> str | None:
    """Returns whether there is less or more under a plan: a difference is real if its interval of 95 % doesn't have 0
    in it. None for the plan with which the others are compared; unknown if there is only one seed."""
    if more is None:
        return None
    if more.half is None:
        return UNKNOWN
    if abs(more.value) <= more.half or not more.value:
        return SAME
    return LESS if more.value < 0 else MORE


def word(more: Mean | None) -> str:
    """Returns the verdict for the column of a table."""
    said = verdict(more)
    return "-" if said is None else "one seed can't tell" if said == UNKNOWN else said


def sentences(terms: Terms, rows: Iterable[Row]) -> Iterator[str]:
    """Yields a sentence for each plan that is compared, by the delay of all vehicles."""
    for it in rows:
        if it.more_delay is None:
            continue
        value, half, said = it.more_delay.value, it.more_delay.half or 0.0, verdict(it.more_delay)
        size = f"{abs(value):.1f} s {'less' if value < 0 else 'more'} delay a vehicle than '{terms.against}'"
        low, high = sorted((abs(value) - half, abs(value) + half))
        if said == UNKNOWN:
            only = "with one seed, which can't tell whether the difference is real: give more seeds"
            yield f"'{it.plan}' has {size} {only}"
        elif said == SAME:
            between = f"{value - half:+.1f} to {value + half:+.1f} s at 95 % over {len(terms.seeds)} seeds"
            more = "; more seeds narrow the interval" if half else ""
            yield f"'{it.plan}' has no real difference in delay from '{terms.against}' ({between}){more}"
        else:
            yield f"'{it.plan}' has {size} ({low:.1f} to {high:.1f} s at 95 % over {len(terms.seeds)} seeds)"


def of_width(terms: Terms, reached: float | None) -> Iterator[str]:
    """Yields a sentence on the wanted width, if one was wanted."""
    if terms.wanted is None:
        return
    wanted, seeds = f"{terms.wanted.width:g} s", f"{len(terms.seeds)} seeds"
    if reached is None:
        yield f"width: there is no interval for the wanted ± {wanted}: no vehicles in a run"
    elif reached <= terms.wanted.width:
        yield f"width: ± {reached:.2f} s after {seeds}, as narrow as ± {wanted} was wanted"
    else:
        yield f"width: ± {reached:.2f} s after {seeds}, the most allowed; ± {wanted} was wanted"


def of_quiet(quiet: dict[str, float | None]) -> Iterator[str]:
    """Yields a line on the time in which coordination was undisturbed, if it is known of a plan."""
    if any(it is not None for it in quiet.values()):
        told = (f"{name} " + ("-" if it is None else f"{it:.1%}") for name, it in quiet.items())
        yield f"coordination undisturbed: {', '.join(told)} of the time"
