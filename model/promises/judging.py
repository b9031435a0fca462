"""All promises on a trace."""

from collections.abc import Callable, Iterator

from model.promises.apart import apart
from model.promises.offset import offset
from model.promises.times import times
from model.promises.told import Street, Untold, streets_of
from model.promises.whole import whole
from model.promises.zeros import zeros
from model.shapes import Refused

PROMISES: dict[str, Callable[[Street], Iterator[str]]] = {
    "apart": apart,
    "times": times,
    "whole": whole,
    "zeros": zeros,
    "offset": offset,
}


def broken_promises(text: bytes) -> list[str]:
    """Returns a line for each place at which a trace breaks a promise."""
    try:
        _, streets = streets_of(text)
        told = [
            (name, street.number, it)
            for street in streets
            for name, promise in PROMISES.items()
            for it in promise(street)
        ]
    except (Untold, Refused) as fault:
        return [f"no trace: {fault}"]
    return [f"{name}: cabinet {number}, {it}" for name, number, it in told]
