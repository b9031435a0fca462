"""Fields of a sheet: each cell by a name, in seconds, words or lists.

A field turns what a sheet says into the value of a cell and back. What it can't take it refuses in words (`Wrong`).
"""

import enum
import re
import sys
from dataclasses import dataclass, field
from typing import Any, TypeGuard

from ..shared.cells import BYTE, PHASE, PREEMPT, UNIT, Lists, Numbers
from ..shared.given import Wrong


class Unit(enum.Enum):
    """What a cell's number counts; its value is how many of it make a second, 0 if it isn't a time."""

    SECONDS = 1
    TENTHS = 10
    COUNT = 0


def is_number(given: object) -> TypeGuard[int | float]:
    """Tells whether something is a number, and one that a float can hold."""
    return isinstance(given, (int, float)) and not isinstance(given, bool) and abs(given) <= sys.float_info.max


def one_line(given: object) -> str:
    """Returns a name in one line, with one blank for all blanks and line ends between its words. A name with other
    characters that aren't shown, as an escape of a terminal, is refused."""
    if not isinstance(given, str):
        raise Wrong(f"expected a text, found {given!r}")
    found = " ".join(given.split())
    if not found.isprintable():
        raise Wrong(f"{given!r} has characters that can't be shown")
    return found


COMMA, CENT = re.compile(r"\s*(\d+),(\d+)\s*(?:s|sec)?\s*"), re.compile(r"\s*(\d+(?:\.\d+)?)\s*%\s*")
WITH_UNIT = re.compile(r"\s*(\d+(?:\.\d+)?)\s*(?:s|sec|seconds|mph|km/h|ft|m)\s*")


def number_hint(given: object) -> str:
    """Returns how to write a number that is given as a text: with a point, in seconds, without its unit."""
    if not isinstance(given, str):
        return ""
    if found := COMMA.fullmatch(given):
        return f": write {found[1]}.{found[2]}, with a point and without quotes"
    if CENT.fullmatch(given):
        return ": a sheet has seconds, not per cent of the cycle"
    found = WITH_UNIT.fullmatch(given)
    return f": write {found[1]}, without unit and quotes" if found else ""


def shown(number: float) -> str:
    """Returns a number as people write it."""
    return f"{number:g}"


@dataclass(frozen=True)
class Time:
    """A number, in seconds if it is a time."""

    column: int
    unit: Unit
    range: Numbers

    def read(self, given: object) -> int:
        """Returns the cell's value."""
        if not is_number(given):
            raise Wrong(f"expected a number, found {given!r}{number_hint(given)}")
        scale = self.unit.value or 1
        found = round(given * scale)
        if not self.range.least <= found <= self.range.most:
            least, most = shown(self.range.least / scale), shown(self.range.most / scale)
            hint = ""
            if self.unit is Unit.TENTHS and self.range.least <= given <= self.range.most:
                hint = f": are tenths meant? The sheet has seconds, so write {shown(given / 10)}"
            raise Wrong(f"{shown(given)}{self.what()} is not {least} to {most}{hint}")
        if abs(given * scale - found) > 1e-6:
            step = (
                "tenths of a second"
                if scale == 10
                else "whole seconds"
                if self.unit is Unit.SECONDS
                else "whole numbers"
            )
            raise Wrong(f"{shown(given)}{self.what()}: a cabinet holds {step} here")
        return found

    def what(self) -> str:
        """Returns the unit after a number."""
        return "" if self.unit is Unit.COUNT else " s"

    def show(self, value: int) -> int | float:
        """Returns what a sheet says of the value."""
        return value / 10 if self.unit is Unit.TENTHS else value


@dataclass(frozen=True)
class Word:
    """One of some words."""

    column: int
    words: dict[int, str]

    def read(self, given: object) -> int:
        """Returns the cell's value."""
        for value, word in self.words.items():
            if given == word:
                return value
        known = ", ".join(f'"{it}"' for it in self.words.values())
        raise Wrong(f"expected one of {known}, found {given!r}")

    def show(self, value: int) -> str:
        """Returns what a sheet says of the value."""
        return self.words[value]


@dataclass(frozen=True)
class Phases:
    """A list of phases."""

    column: int
    range: Lists = field(default_factory=Lists)

    def read(self, given: object) -> tuple:
        """Returns the cell's value."""
        if not isinstance(given, list) or any(isinstance(it, bool) or not isinstance(it, int) for it in given):
            raise Wrong(f"expected a list of phases, as [2, 6], found {given!r}")
        if len(given) > self.range.longest:
            raise Wrong(f"expected at most {self.range.longest} phases, found {len(given)}")
        if any(not 0 <= it <= 255 for it in given):
            raise Wrong(f"{given!r} has numbers that aren't phases")
        return tuple(given)

    def show(self, value: tuple) -> list[int]:
        """Returns what a sheet says of the value."""
        return list(value)


def seconds(column: int, of: dict[int, Any]) -> Time:
    """Returns a time that a cell holds in seconds."""
    return Time(column, Unit.SECONDS, of[column])


def tenths(column: int, of: dict[int, Any]) -> Time:
    """Returns a time that a cell holds in tenths of a second."""
    return Time(column, Unit.TENTHS, of[column])


def count(column: int, of: dict[int, Any]) -> Time:
    """Returns a number that isn't a time."""
    return Time(column, Unit.COUNT, of[column])


Field = Time | Word | Phases
STARTUPS = {1: "other", 2: "red", 3: "green with walk", 4: "green", 5: "yellow", 6: "red clearance"}
PHASE_FIELDS: dict[str, Field] = {
    "min_green": seconds(4, PHASE), "passage": tenths(5, PHASE), "max_green": seconds(6, PHASE),
    "yellow": tenths(8, PHASE),
    "red_clear": tenths(9, PHASE), "red_revert": tenths(10, PHASE), "walk": seconds(2, PHASE),
    "ped_clear": seconds(3, PHASE),
    "startup": Word(20, STARTUPS), "max_green_2": seconds(7, PHASE), "added_initial": tenths(11, PHASE),
    "max_initial": seconds(12, PHASE), "time_before_reduction": seconds(13, PHASE),
    "cars_before_reduction": count(14, PHASE),
    "time_to_reduce": seconds(15, PHASE), "reduce_by": tenths(16, PHASE), "min_gap": tenths(17, PHASE),
    "dynamic_max_limit": seconds(18, PHASE), "dynamic_max_step": tenths(19, PHASE), "ring": count(22, PHASE),
    "concurrent": Phases(23),
}  # fmt: skip
"""What a sheet may say of a phase, in addition to its options."""

UNIT_FIELDS: dict[str, Field] = {
    "correction": Word(1, {1: "other", 2: "dwell", 3: "shortway", 4: "add only"}),
    "dwell_limit": tenths(2, UNIT), "add_limit": tenths(3, UNIT), "skip_limit": tenths(4, UNIT),
    "extension_limit": tenths(6, UNIT),
    "backup_time": seconds(5, UNIT), "force_off": Word(7, {1: "fixed", 2: "floating"}),
    "offset_to": Word(8, {1: "start of green", 2: "end of green"}),
}  # fmt: skip
"""What a sheet says of the whole cabinet, in `coordination`."""

PATTERN_FIELDS = {name: Time(column, unit, BYTE) for name, column, unit in (
    ("cycle", 2, Unit.SECONDS), ("offset", 3, Unit.SECONDS), ("split", 4, Unit.COUNT), ("sequence", 5, Unit.COUNT),
)}  # fmt: skip
SPLIT_MODES = Word(
    4, {1: "other", 2: "none", 3: "minimum", 4: "maximum", 5: "pedestrian", 6: "maximum and pedestrian", 7: "omitted"}
)
SPLIT_TIME = Time(3, Unit.SECONDS, BYTE)
PREEMPT_FIELDS: dict[str, Field] = {
    "delay": seconds(4, PREEMPT), "min_duration": seconds(5, PREEMPT), "max_presence": seconds(11, PREEMPT),
    "min_green": seconds(6, PREEMPT), "min_walk": seconds(7, PREEMPT), "ped_clear": seconds(8, PREEMPT),
    "track_green": seconds(9, PREEMPT), "dwell_green": seconds(10, PREEMPT), "track": Phases(12), "dwell": Phases(13),
    "dwell_walks": Phases(14), "exit": Phases(15),
}  # fmt: skip

ENABLED, NON_LOCK, DUAL_ENTRY = 1, 32, 1024
RECALLS = {64: "minimum", 128: "maximum", 256: "pedestrian"}
KEPT_OPTIONS = {
    2: "flash entry", 4: "flash exit", 8: "non-actuated 1", 16: "non-actuated 2", 512: "soft recall",
    2048: "simultaneous gap disable",
    4096: "guaranteed passage", 8192: "actuated rest in walk", 16384: "conditional service", 32768: "added initial",
}  # fmt: skip
"""Options after NTCIP 1202 that a cabinet keeps without effect."""


def words_of(given: object, words: dict[int, str]) -> int:
    """Returns the sum of the options that a word or a list of words names."""
    named = given if isinstance(given, list) else [] if given == "none" else [given]
    bits = {word: bit for bit, word in words.items()}
    for it in named:
        if not isinstance(it, str) or it not in bits:
            known = ", ".join(f'"{word}"' for word in ("none", *bits))
            raise Wrong(f"expected one of {known}, found {it!r}")
    return sum({bits[it] for it in named})


def flag(given: object) -> bool:
    """Reads true or false."""
    if not isinstance(given, bool):
        raise Wrong(f"{given!r} is neither true nor false")
    return given


def with_bits(options: int, mask: int, bits: int) -> int:
    """Returns options in which those of a mask are some bits."""
    return options & ~mask | bits


def read_option(name: str, given: object, options: int) -> int:
    """Returns the options of a phase after a sheet has said one of them."""
    match name:
        case "enabled":
            return with_bits(options, ENABLED, ENABLED * flag(given))
        case "locking":
            return with_bits(options, NON_LOCK, NON_LOCK * (not flag(given)))
        case "dual_entry":
            return with_bits(options, DUAL_ENTRY, DUAL_ENTRY * flag(given))
        case "recall":
            return with_bits(options, sum(RECALLS), words_of(given, RECALLS))
    return with_bits(options, sum(KEPT_OPTIONS), words_of(given, KEPT_OPTIONS))


def show_option(name: str, options: int) -> object:
    """Returns what a sheet says of one of the options."""
    match name:
        case "enabled":
            return bool(options & ENABLED)
        case "locking":
            return not options & NON_LOCK
        case "dual_entry":
            return bool(options & DUAL_ENTRY)
    words = RECALLS if name == "recall" else KEPT_OPTIONS
    found = [word for bit, word in words.items() if options & bit]
    return "none" if not found else found[0] if len(found) == 1 else found


OPTIONS = ("recall", "locking", "dual_entry", "enabled", "kept_options")
"""What a sheet may say of a phase's options."""
