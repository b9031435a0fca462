"""Drawn logs for `judge`: the lines of a trace, with changes that a controller at fault, or a logger, would make."""

from collections.abc import Callable
from random import Random

MODES = ["F", "X", "S", "C1", "K2", "P1e", "P1t", "P2d", "P1x", "P0e", "P9d", "P255t"]
Words = list[list[str]]
"""The words of the lines after the first."""


def places(lines: Words, kind: str = "F") -> list[int]:
    """Returns the places of the lines of a kind."""
    return [place for place, words in enumerate(lines) if words[0] == kind]


def moved(draw: Random, lines: Words, place: int) -> None:
    """Moves a line in time."""
    lines[place][2] = str(max(0, int(lines[place][2]) + draw.choice([-10, -2, -1, -1, 1, 1, 2, 10, 300])))


def other_letter(draw: Random, lines: Words, place: int) -> None:
    """Changes a colour or a pedestrian signal."""
    word, letters = draw.choice([(3, "GYCR"), (3, "GYCR"), (4, "WFD")])
    text, at = lines[place][word], draw.choice([*range(8), *range(8), *range(16)])
    lines[place][word] = text[:at] + draw.choice(letters) + text[at + 1 :]


def other_mode(draw: Random, lines: Words, place: int) -> None:
    """Changes the mode."""
    lines[place][5] = draw.choice(MODES)


def left_out(draw: Random, lines: Words, place: int) -> None:
    """Leaves a line out."""
    del lines[place]


def twice(draw: Random, lines: Words, place: int) -> None:
    """Repeats a line, mostly at a later tick."""
    again = list(lines[place])
    if draw.random() < 0.8:
        again[2] = str(int(again[2]) + draw.randint(1, 50))
    lines.insert(place + 1, again)


def loaded(draw: Random, lines: Words, place: int) -> None:
    """Puts an accepted download before a line."""
    lines.insert(place, ["L", lines[place][1], str(draw.choice([0, 1, 1, 2, 3])), "accepted", "1"])


def other_cabinet(draw: Random, lines: Words, place: int) -> None:
    """Names another cabinet."""
    lines[place][1] = str(draw.choice([0, 1, 2, 3, 65]))


def other_version(draw: Random, lines: Words, place: int) -> None:
    """Names another version."""
    lines[place][8] = str(draw.choice([0, 1, 2, 4294967295]))


CHANGES: list[Callable[[Random, Words, int], None]] = [
    moved, moved, moved, other_letter, other_letter, other_letter, other_mode, other_mode, left_out, twice, loaded,
]  # fmt: skip
FAULTS: list[Callable[[Random, Words, int], None]] = [other_cabinet, other_version]


def renumber(lines: Words) -> None:
    """Gives each line the version that the accepted downloads before it make."""
    versions: dict[str, int] = {}
    for words in lines:
        if words[0] == "L" and words[3] == "accepted":
            versions[words[1]] = versions.get(words[1], 0) + 1
            words[4] = str(versions[words[1]])
        elif words[0] == "F":
            words[8] = str(versions.get(words[1], 0))


def in_order(lines: Words) -> None:
    """Moves lines so that the ticks of each cabinet rise."""
    last: dict[str, int] = {}
    for words in lines:
        if words[0] == "F":
            tick = max(int(words[2]), last.get(words[1], -1) + 1)
            last[words[1]], words[2] = tick, str(tick)


def log_of(draw: Random, trace: bytes) -> bytes:
    """Returns a log that is made of a trace."""
    first, *rest = trace.decode("latin-1").splitlines()
    lines = [line.split(" ") for line in rest if draw.random() < 0.99 or line[0] in "FL"]
    for _ in range(draw.choice([0, 1, 1, 2, 3, 8])):
        if frames := places(lines):
            draw.choice(CHANGES)(draw, lines, draw.choice(frames))
    if draw.random() < 0.9:
        in_order(lines)
    renumber(lines)
    if draw.random() < 0.1 and places(lines):
        draw.choice(FAULTS)(draw, lines, draw.choice(places(lines)))
    return "".join(f"{line}\n" for line in (first, *(" ".join(words) for words in lines))).encode("latin-1")


def judge_words(draw: Random) -> list[str]:
    """Returns the words of `judge`, with options or without."""
    joined = ["--joined"] if draw.random() < 0.4 else []
    return ["judge", *joined, *(["--tolerance", str(draw.randint(0, 20))] if draw.random() < 0.4 else [])]
