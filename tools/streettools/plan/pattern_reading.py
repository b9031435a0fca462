"""Patterns and splits of a sheet: what it says, the defaults for what it omits, and what partners get."""

from collections.abc import Iterator

from ..shared.tables import ALL
from . import fields
from ..shared.cells import SPLITS, put, value
from ..shared.given import Given, Wrong
from .layout import OMITTED
from .started import Read

SPLIT_NAMES = ("splits", "coordinated", "modes")


def read_split(it: Given, number: int, found: Read, usual: tuple[int, ...] | None, called: str) -> None:
    """Reads times, modes and coordinated phases of a split, and gives partners theirs. `usual` are the phases that
    are coordinated by default; messages name the split as `called` says."""
    said_times = set()
    parts: tuple[tuple[str, fields.Field, int], ...] = (
        ("splits", fields.SPLIT_TIME, 3), ("modes", fields.SPLIT_MODES, 4),
    )  # fmt: skip
    for name, each, column in parts:
        below = it.spread(name, len(ALL))
        below.allow(map(str, ALL))
        for phase in ALL:
            new = below.read(str(phase), each.read)
            if new is not None:
                put(found.tables, ("split", number, phase, column), new)
                if column == 3:
                    said_times.add(phase)
    pair = it.read("coordinated", lambda said: coordinated(said, found), usual)
    if pair is not None:
        for phase in ALL:
            put(found.tables, ("split", number, phase, 5), int(phase in pair))
    if said_times or "coordinated" in it.table:
        fill_split_partners(found, number, said_times, pair)
    if said_times:
        found.doubts += split_doubts(found, number, said_times, called)


def split_doubts(found: Read, number: int, said: set[int], called: str) -> Iterator[str]:
    """Yields the phases that the splits leave to the standard table, and those that they name though they aren't
    enabled."""
    enabled, left = set(found.tables.enabled()), []
    for phase in sorted(enabled - said - set(found.partners)):
        if value(found.tables, ("split", number, phase, 4)) != OMITTED:
            left.append(f"{found.names.phase_name(phase)}, {value(found.tables, ('split', number, phase, 3))} s")
    if left:
        yield f"{called} leaves splits to the standard table: {'; '.join(left)}; write them in `splits`"
    for phase in sorted(said - enabled):
        time = value(found.tables, ("split", number, phase, 3))
        if time:
            yield (
                f"{called} gives {found.names.phase_name(phase)} {time} s, but the phase isn't enabled: draw it in "
                "`rings`, or take the split out"
            )


def coordinated(said: object, found: Read) -> tuple[int, ...]:
    """Returns the coordinated phases; a partner is coordinated along with the phase that it faces."""
    pair = fields.Phases(5).read(said)
    if any(it not in ALL for it in pair):
        raise Wrong(f"{said!r} has numbers that aren't phases")
    return pair


def fill_split_partners(found: Read, number: int, said: set[int], pair: tuple[int, ...] | None) -> None:
    """Gives each partner that the split doesn't name the time of the phases that it faces, and coordinates it along
    with them."""
    for partner in found.partners:
        if partner in said:
            continue
        side = next(it for it in found.drawn.sides if partner in (*it[0], *it[1]))
        faced = side[0] if side[1] == (partner,) else side[1]
        time = sum(value(found.tables, ("split", number, phase, 3)) for phase in faced)
        put(found.tables, ("split", number, partner, 3), min(time, 255))
        if pair is not None:
            put(
                found.tables,
                ("split", number, partner, 5),
                int(partner in pair or any(phase in pair for phase in faced)),
            )


def usual_pair(found: Read, number: int) -> tuple[int, ...]:
    """Returns the phases that a split coordinates by default: those that it has, or the main street, 2 and 6, if they
    are drawn."""
    drawn = [phase for phase in found.tables.enabled() if phase not in found.partners]
    has = tuple(phase for phase in drawn if value(found.tables, ("split", number, phase, 5)))
    return has or tuple(phase for phase in (2, 6) if phase in drawn)


def read_pattern(it: Given, number: int, found: Read, used: dict[int, str]) -> None:
    """Reads a pattern, with its splits if they are given with it. For a pattern with a cycle the split defaults to
    the pattern's own number and the sequence to 1."""
    it.allow((*fields.PATTERN_FIELDS, *SPLIT_NAMES))
    in_seconds(it)
    said = {name: it.read(name, each.read) for name, each in fields.PATTERN_FIELDS.items()}
    if said["cycle"]:
        for name, usual in (("split", number if number in SPLITS else 0), ("sequence", 1)):
            if said[name] is None and value(found.tables, ("pattern", number, fields.PATTERN_FIELDS[name].column)) == 0:
                said[name] = usual
    for name, new in said.items():
        if new is not None:
            put(found.tables, ("pattern", number, fields.PATTERN_FIELDS[name].column), new)
    if not any(name in it.table for name in SPLIT_NAMES):
        return
    split = value(found.tables, ("pattern", number, 4))
    if value(found.tables, ("pattern", number, 2)) == 0 and "splits" in it.table and said["split"] is None:
        doubt_cycle(it, number, found)
    elif split not in SPLITS:
        it.fault("the number of the split that has these times is missing, 1 to 32", "split")
    elif split in used:
        it.fault(
            f"the times of split {split} are already given with {used[split]}: give them once, or give this "
            "pattern another split",
            "splits",
        )
    else:
        used[split] = f"pattern {number}"
        read_split(it, split, found, usual_pair(found, split), used[split])


def in_seconds(it: Given) -> None:
    """Keeps a fault if an offset is in per cent of the cycle, with its seconds, and drops it."""
    said, cycle = it.table.get("offset"), it.table.get("cycle")
    cent = fields.CENT.fullmatch(said) if isinstance(said, str) else None
    if cent and fields.is_number(cycle):
        meant = f"{float(cent[1]) * cycle / 100:.0f}"
        it.fault(f"{said!r} is in per cent, and a sheet has seconds: write {meant}", "offset")
        it.table = {name: value for name, value in it.table.items() if name != "offset"}


def doubt_cycle(it: Given, number: int, found: Read) -> None:
    """Keeps a doubt about splits of a pattern that isn't defined, since it has no cycle."""
    zero = "its cycle is 0" if "cycle" in it.table else "it has no cycle"
    found.doubts.append(f"pattern {number} isn't defined, since {zero}: its splits do nothing; write its cycle")
