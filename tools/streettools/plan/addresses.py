"""Where the devices of a street's intersections are: one address for each, as `plan loads --sets` takes them."""

import re
from typing import NamedTuple

from ..shared.fault import Fault

USUAL_PORT = 161
ONE = re.compile(r"(?:([0-9]{1,2})=)?([^\s:=+]+)(?::([0-9]{1,5}))?(\+)?")


class Place(NamedTuple):
    """A host and a port."""

    host: str
    port: int

    def __str__(self) -> str:
        return f"{self.host}:{self.port}"


class Said(NamedTuple):
    """An address as it was given: for which intersection (None: not said), where, whether ports count up from it."""

    number: int | None
    place: Place
    counts_up: bool


def said_of(word: str) -> Said:
    """Returns what an address says."""
    found = ONE.fullmatch(word)
    port = int(found[3] or USUAL_PORT) if found else 0
    if not found or not 0 < port < 65_536 or (found[1] and found[4]):
        raise Fault(f"{word!r} is not an address: HOST:PORT+ for a whole street, N=HOST:PORT for intersection N")
    return Said(int(found[1]) if found[1] else None, Place(found[2], port), bool(found[4]))


def places_of(words: list[str], count: int) -> dict[int, Place]:
    """Returns the place of each intersection of a street that has one: `HOST:PORT+` is that of intersection 1, and the
    next ones have the next ports; `N=HOST:PORT` is that of intersection N. One address for two intersections is
    refused, and so is one that doesn't say for which of several it is."""
    said = [said_of(word) for word in words]
    if len(said) > 1 and any(it.number is None for it in said):
        raise Fault("several addresses: say of each for which intersection it is, as 2=HOST:PORT")
    found: dict[int, Place] = {}
    for number, place, counts_up in said:
        if counts_up:
            if place.port + count - 1 > 65_535:
                raise Fault(f"{place}+ leaves no ports for {count} intersections")
            found |= {at + 1: Place(place.host, place.port + at) for at in range(count)}
            continue
        if number is None and count > 1:
            words_for = f"{place}+ (intersection 2 is then at port {place.port + 1}, and so on) or N={place}"
            raise Fault(f"one address, {place}, for {count} intersections: write {words_for} for each intersection N")
        put(found, 1 if number is None else number, place, count)
    return found


def put(found: dict[int, Place], number: int, place: Place, count: int) -> None:
    """Puts the place of an intersection to those that were found."""
    if not 1 <= number <= count:
        raise Fault(f"{number}={place}: there is no intersection {number}; there are {count}")
    if number in found:
        raise Fault(f"intersection {number} has two addresses, {found[number]} and {place}")
    other = next((it for it, where in found.items() if where == place), None)
    if other is not None:
        raise Fault(f"intersections {other} and {number} have one address, {place}: each has a device of its own")
    found[number] = place
