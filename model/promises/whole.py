"""A download comes into force as a whole between two ticks, or not at all: the version on each frame is the number of
downloads accepted before it, and a download is accepted exactly if its tables keep all rules, together with those in
force."""

from collections.abc import Iterator

from model.promises.told import Street
from model.rules import first_broken


def versions(street: Street) -> Iterator[str]:
    """Reports frames whose version isn't the number of downloads that were accepted before their tick."""
    accepted = [end.tick for end in street.ends if end.version is not None]
    for seen in street.seen:
        due = sum(tick < seen.tick for tick in accepted)
        if seen.version != due:
            yield f"tick {seen.tick}: version {seen.version}, after {due} downloads"


def ends(street: Street) -> Iterator[str]:
    """Reports downloads whose end isn't what the rules of tables say, or has another number."""
    count = 0
    for end in street.ends:
        broken = first_broken(end.staged, end.in_force, end.is_flashing)
        count += end.version is not None
        if end.version is not None and end.version != count:
            yield f"behind tick {end.tick}: version {end.version} is the download of number {count}"
        if broken != end.broken:
            yield f"behind tick {end.tick}: a download told {end.broken}, {broken} is due"


def changes(street: Street) -> Iterator[str]:
    """Reports downloads that were accepted, but that no frame at the next tick shows."""
    seen = {(it.tick, it.version) for it in street.seen}
    for number, end in enumerate((it for it in street.ends if it.version is not None), 1):
        later = [it for it in street.ends if it.version is not None and it.tick == end.tick]
        version = number if later[-1] is end else None
        if version is not None and end.tick < street.ticks and (end.tick + 1, version) not in seen:
            yield f"tick {end.tick + 1}: no frame of version {version}"


def whole(street: Street) -> Iterator[str]:
    """Yields the violations of this promise in a street."""
    yield from versions(street)
    yield from ends(street)
    yield from changes(street)
