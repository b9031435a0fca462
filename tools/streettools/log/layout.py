"""How the rows of a log are written: which column has the time, the device, the code and the parameter."""

import csv
from typing import NamedTuple

from ..shared.fault import Fault
from . import times
from .times import Style

NAMES = {
    "time": {"timestamp", "time", "datetime", "eventtime", "eventtimestamp", "date_time", "timestamp_utc", "start"},
    "device": {
        "deviceid", "device", "signalid", "signal", "intersectionid", "intersection", "locationidentifier",
        "locationid", "location", "controllerid", "controller", "siteid", "site",
    },
    "code": {"eventid", "eventcode", "eventcodeid", "code", "event", "eventtype", "eventtypeid"},
    "parameter": {"parameter", "eventparam", "eventparameter", "param", "parametercode", "parameterid"},
}  # fmt: skip
"""The names of columns that agencies use, without blanks, dashes and capitals."""
DELIMITERS = ",;\t|"
REMARKS = ("#", "//")
PROBED = 1000
"""How many lines are examined to find the columns."""


class Layout(NamedTuple):
    """Where a log has what: places of columns from 0 (`device` is None if it has none), their number, the character
    between them, how times are written, and the number of lines before the first row."""

    time: int
    device: int | None
    code: int
    parameter: int
    width: int
    delimiter: str
    style: Style
    header: int
    is_doubtful: bool


def words_of(line: str, delimiter: str) -> list[str]:
    """Returns the words of a line."""
    try:
        return [it.strip() for it in next(csv.reader([line], delimiter=delimiter, skipinitialspace=True), [])]
    except (csv.Error, StopIteration):
        return []


def is_remark(line: str) -> bool:
    """Tells whether a line is empty or a remark."""
    return not line.strip() or line.lstrip().startswith(REMARKS)


def named(words: list[str]) -> dict[str, int]:
    """Returns the places of the columns that a header names."""
    found: dict[str, int] = {}
    for place, word in enumerate(words):
        plain = word.casefold().replace(" ", "").replace("-", "").replace("_", "")
        for column, names in NAMES.items():
            if plain in {it.replace("_", "") for it in names}:
                found.setdefault(column, place)
    return found


def is_number(word: str) -> bool:
    """Tells whether a word is a number without a sign."""
    return word.isdecimal() and word.isascii() and len(word) <= 9


def unnamed(words: list[str]) -> dict[str, int] | None:
    """Returns the places of the columns of a row without a header: one is a time; of the others the last two are the
    code and the parameter, and one before these is the device. None if the words aren't a row."""
    at = next((place for place, word in enumerate(words) if times.is_time(word) and not is_number(word)), None)
    if at is None:
        at = next((place for place, word in enumerate(words) if times.is_time(word)), None)
    rest = [place for place in range(len(words)) if place != at]
    if at is None or len(rest) not in (2, 3) or not all(is_number(words[place]) for place in rest[-2:]):
        return None
    found = {"time": at, "code": rest[-2], "parameter": rest[-1]}
    return found if len(rest) == 2 else found | {"device": rest[0]}


def columns_of(text: str) -> dict[str, int]:
    """Returns the places of columns that a user lists, as `device,time,code,parameter`; `-` is a column to ignore."""
    found: dict[str, int] = {}
    for place, word in enumerate(text.split(",")):
        if word.strip() == "-":
            continue
        if word.strip() not in NAMES or word.strip() in found:
            raise Fault(f"--columns {text}: each of time, device, code and parameter once; - is another column")
        found[word.strip()] = place
    if not {"time", "code", "parameter"} <= set(found):
        raise Fault(f"--columns {text}: time, code and parameter are required")
    return found


def layout(lines: list[str], columns: str | None, day_first: bool | None, path: str) -> Layout:
    """Returns the layout of the first lines of a log."""
    rows = [(number, line) for number, line in enumerate(lines[:PROBED]) if not is_remark(line)]
    if not rows:
        raise Fault(f"{path}: it has no rows")
    best: tuple[int, Layout] | None = None
    for delimiter in DELIMITERS:
        found = with_delimiter(rows, delimiter, columns_of(columns) if columns else None, day_first)
        if found is not None and (best is None or found[0] > best[0]):
            best = found
    if best is None:
        raise Fault(
            f"{path}: no row with a time, a code and a parameter in its first {PROBED:,} lines; --columns "
            "device,time,code,parameter names the columns"
        )
    return best[1]


def with_delimiter(
    rows: list[tuple[int, str]], delimiter: str, given: dict[str, int] | None, day_first: bool | None
) -> tuple[int, Layout] | None:
    """Returns the layout with this character between columns, and how many of the lines are rows by it."""
    split = [(number, words_of(line, delimiter)) for number, line in rows]
    places, header = given, split[0][0]
    for number, words in split:
        if places is None:
            it = named(words)
            if {"time", "code", "parameter"} <= set(it):
                places, header = it, number + 1
                break
            if (it_is := unnamed(words)) is not None:
                places, header = it_is, number
                break
    if places is None:
        return None
    most = max(places.values())
    texts = [words[places["time"]] for number, words in split if number >= header and len(words) > most]
    style, is_doubtful = times.style_of(texts, day_first)
    if style is None:
        return None
    width = max(len(words) for number, words in split if number >= header)
    found = Layout(
        places["time"], places.get("device"), places["code"], places["parameter"], width, delimiter, style, header,
        is_doubtful,
    )  # fmt: skip
    return len(texts), found
