"""Steps of a test in words, as `call 4 at 10 s` or `hold preempt 1 for 30 s at 20 s`, and the acts that they are.

An act happens at one moment: a detector goes on, a button is pressed, a command is set. Times are in seconds after the
start of the test, the moment at which the device leaves flash.
"""

import re
from collections.abc import Callable
from dataclasses import dataclass
from typing import Any

from ..shared.clock import of_day
from ..shared.given import Wrong
from .objects import FLASH, FREE

VEH, PED, PREEMPT, PATTERN, CLOCK, PRIORITY = "veh", "ped", "preempt", "pattern", "clock", "priority"
STAGE, VERIFY, FORCE, DISCARD, QUIET, DAMAGED = "stage", "verify", "force", "discard", "quiet", "damaged"
PULSE = 5
"""The ticks for which a vehicle is on a detector if a step doesn't say how long."""
LOAD_STEP = 5
"""The ticks between the parts of a load: its cells, its verification, its coming into force."""
MOST_SECONDS = 7200
SECONDS = r"(\d{1,4}(?:\.\d)?) ?s"
COMMANDS = {"free": FREE, "flash": FLASH}


@dataclass(frozen=True)
class Act:
    """What happens at a tick after the start of a test. `number` is the phase, preempt, pattern, second of the day or
    priority request; `name` a load; `request` the octets of a priority request; `ticks` how long nothing is asked."""

    at: int
    kind: str
    words: str
    number: int = 0
    on: bool = True
    name: str = ""
    request: bytes = b""
    ticks: int = 0


Made = Callable[[str, int, "re.Match[str]"], list[Act]]


def ticks(text: str) -> int:
    """Returns a time in ticks."""
    found = round(10 * float(text))
    if found > 10 * MOST_SECONDS:
        raise Wrong(f"{text} s is more than {MOST_SECONDS} s")
    return found


def in_range(text: str, what: str, most: int) -> int:
    """Returns a number from 1 on."""
    if not 1 <= int(text) <= most:
        raise Wrong(f"{text} is not a {what} from 1 to {most}")
    return int(text)


def held(kind: str, what: str, most: int) -> Made:
    """Returns what makes an input that is on for some time: by default for half a second."""

    def made(line: str, at: int, found: "re.Match[str]") -> list[Act]:
        number, length = in_range(found[1], what, most), ticks(found[2]) if found[2] else PULSE
        if length < 1:
            raise Wrong("an input is on for at least 0.1 s")
        return [Act(at, kind, line, number), Act(at + length, kind, f"{line} (its end)", number, False)]

    return made


def pressed(line: str, at: int, found: "re.Match[str]") -> list[Act]:
    """Makes a button that is pressed."""
    return [Act(at, PED, line, in_range(found[1], "phase", 16))]


def commanded(line: str, at: int, found: "re.Match[str]") -> list[Act]:
    """Makes the command of a pattern, of free operation or of flash."""
    number = COMMANDS.get(found[0].split(" ")[0]) or in_range(found[1], "pattern", 48)
    return [Act(at, PATTERN, line, number)]


def set_clock(line: str, at: int, found: "re.Match[str]") -> list[Act]:
    """Makes a clock that is set."""
    seconds = of_day(found[1])
    if seconds is None or seconds != int(seconds):
        raise Wrong(f"{found[1]} is not a time of day in whole seconds, as 07:30:00")
    return [Act(at, CLOCK, line, int(seconds))]


def loaded(line: str, at: int, found: "re.Match[str]") -> list[Act]:
    """Makes a load: staged, verified, put in force."""
    kinds = (STAGE, VERIFY, FORCE)
    whole = enumerate(kinds)
    return [Act(at + LOAD_STEP * place, kind, f"{line} ({kind})", name=found[1]) for place, kind in whole]


def staged(kind: str) -> Made:
    """Returns what makes one part of a load."""
    return lambda line, at, found: [Act(at, kind, line, name=found[1] if found.re.groups else "")]


def requested(line: str, at: int, found: "re.Match[str]") -> list[Act]:
    """Makes a priority request: eight octets."""
    number, phase, klass, level = (
        in_range(found[place], what, most)
        for place, (what, most) in enumerate(
            (("request", 10), ("phase", 16), ("class", 10), ("level", 10)), 1
        )
    )
    first, last = ticks(found[5]), ticks(found[6])
    if first > last:
        raise Wrong("the vehicle departs before it arrives")
    octets = bytes((number, klass, level, phase)) + first.to_bytes(2, "big") + last.to_bytes(2, "big")
    return [Act(at, PRIORITY, line, number, request=octets)]


def quiet(line: str, at: int, found: "re.Match[str]") -> list[Act]:
    """Makes a time in which nothing is sent."""
    return [Act(at, QUIET, line, ticks=ticks(found[1]))]


FORMS: tuple[tuple[str, Made], ...] = (
    (rf"(?:call|hold) (\d+)(?: for {SECONDS})?", held(VEH, "phase", 16)),
    (rf"(?:hold |call )?preempt (\d+)(?: for {SECONDS})?", held(PREEMPT, "preempt", 8)),
    (r"push (\d+)", pressed),
    (r"pattern (\d+)", commanded),
    (r"free|flash", commanded),
    (r"clock ([0-9:]+)", set_clock),
    (r"load (\S+)", loaded),
    (r"stage (\S+)", staged(STAGE)),
    (r"verify", staged(VERIFY)),
    (r"put in force", staged(FORCE)),
    (r"discard", staged(DISCARD)),
    (rf"priority (\d+) for phase (\d+) class (\d+) level (\d+) from {SECONDS} to {SECONDS}", requested),
    (rf"nothing for {SECONDS}", quiet),
    (r"damaged messages", lambda line, at, found: [Act(at, DAMAGED, line)]),
)
"""The forms of a step, without ` at SECONDS s` at its end."""
KNOWN = (
    "call 4 at 10 s; call 4 for 3 s at 10 s; push 2 at 12 s; preempt 1 for 30 s at 20 s; pattern 2 at 5 s; free at 5 "
    "s; flash at 5 s; clock 07:30:00 at 0 s; load NAME at 30 s; stage NAME, verify, put in force or discard at 30 s; "
    "priority 1 for phase 2 class 1 level 1 from 5 s to 15 s at 30 s; nothing for 60 s at 10 s; damaged messages at 9 s"
)
AT = re.compile(rf"(.+?) at {SECONDS}")


def acts_of(line: str) -> list[Act]:
    """Returns the acts of a step; what isn't one is refused with the known ones."""
    words = " ".join(line.split())
    timed = AT.fullmatch(words)
    if timed:
        for form, made in FORMS:
            if found := re.fullmatch(form, timed[1]):
                return made(words, ticks(timed[2]), found)
    raise Wrong(f"{line!r} is not a step, as {KNOWN}")


def all_acts(lines: tuple[str, ...]) -> list[Act]:
    """Returns the acts of steps in the order of their times."""
    return sorted((act for line in lines for act in acts_of(line)), key=lambda it: it.at)


def of_scenario(scenario: dict[str, Any]) -> list[Act]:
    """Returns the acts of a scenario's first cabinet: its inputs, in the round in which they arrive."""
    found = []
    for it in scenario.get("inputs", ()):
        if it["cabinet"] != 1:
            continue
        kind = next(name for name in (VEH, PED, PREEMPT) if name in it)
        at, on = (it["round"] - 1) * scenario["ticks"], it.get("on", True)
        words = f"{kind} {it[kind]}{' on' * on}{' off' * (not on)} at {at / 10:g} s"
        found.append(Act(at, kind, words, it[kind], on))
    for number, it in enumerate(scenario.get("loads", ()), 1):
        if it["cabinet"] == 1:
            found += loaded_at(number, (it["round"] - 1) * scenario["ticks"])
    return sorted(found, key=lambda act: act.at)


def loaded_at(number: int, at: int) -> list[Act]:
    """Returns the acts of the download of a scenario."""
    kinds = enumerate((STAGE, VERIFY, FORCE))
    return [Act(at + LOAD_STEP * place, kind, f"download {number} ({kind})", name=str(number)) for place, kind in kinds]
