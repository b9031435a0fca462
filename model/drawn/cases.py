"""Cases of each kind: words of the program, and its standard input."""

import json
import sys
from collections.abc import Callable
from dataclasses import dataclass
from enum import Enum
from pathlib import Path
from random import Random

sys.path.append(str(Path(__file__).resolve().parents[2] / "vectors"))

from damage import damaged  # noqa: E402

from model.drawn import logs, reports  # noqa: E402
from model.drawn.hostile import hostile, text_of  # noqa: E402
from model.drawn.orders import trace_in_order, with_damage  # noqa: E402
from model.drawn.scenarios import scenario  # noqa: E402
from model.drawn.sessions import session  # noqa: E402
from model.scenario_read import read_scenario  # noqa: E402
from model.shapes import Refused  # noqa: E402


TRIES = 4
"""How often a scenario that is refused is drawn again, when a trace is wanted."""


MOST_TICKS = 60_000
"""How many ticks of all cabinets a text that is damaged or hostile may ask for."""


class CaseKind(Enum):
    """The kinds of cases."""

    RUN = "run"
    HOSTILE = "hostile"
    DAMAGED = "damaged"
    CHECK = "check"
    LIVE = "live"
    OVERLAPS = "overlaps"
    JUDGE = "judge"
    RESPOND = "respond"
    BAND = "band"
    WORDS = "words"


@dataclass(frozen=True)
class Case:
    """The words of the program, and standard input."""

    words: list[str]
    data: bytes


def run_case(draw: Random) -> Case:
    """Draws a scenario that is run."""
    return Case(["run"], text_of(draw, scenario(draw)))


def is_long(data: bytes) -> bool:
    """Tells whether a text is a scenario with more than `MOST_TICKS` ticks, whose run takes long."""
    try:
        value = json.loads(data)
        return len(value["cabinets"]) * value["rounds"] * value["ticks"] > MOST_TICKS
    except (ValueError, TypeError, KeyError, RecursionError):
        return False


def short(one: Callable[[], bytes]) -> Case:
    """Draws texts until one isn't a long scenario, and returns the case that runs it."""
    while is_long(data := one()):
        pass
    return Case(["run"], data)


def hostile_case(draw: Random) -> Case:
    """Draws a scenario that has hostile values."""
    return short(lambda: text_of(draw, hostile(draw, scenario(draw, most_ticks=300))))


def damaged_case(draw: Random) -> Case:
    """Draws a damaged text of a scenario."""
    return short(lambda: damaged(draw, text_of(draw, scenario(draw, most_ticks=200))))


def drawn_trace(draw: Random) -> bytes:
    """Draws a trace in some order; the empty text where each scenario of a few is refused."""
    for _ in range(TRIES):
        text = json.dumps(scenario(draw, most_ticks=400)).encode()
        try:
            return trace_in_order(draw, read_scenario(text))
        except Refused:
            continue
    return b""


def check_case(draw: Random) -> Case:
    """Draws a trace in some order, mostly with damage."""
    trace = drawn_trace(draw)
    for _ in range(draw.choice([0, 1, 1, 1, 2])):
        trace = with_damage(draw, trace) if trace else trace
    return Case(["check"], trace)


def live_case(draw: Random) -> Case:
    """Draws a session, sometimes with damage after its first line."""
    first, rest = session(draw).split(b"\n", 1)
    return Case(["live"], first + b"\n" + (damaged(draw, rest) if rest and draw.random() < 0.1 else rest))


def overlap_case(draw: Random) -> Case:
    """Draws an overlap over a trace."""
    trace = drawn_trace(draw)
    return Case(reports.overlap_words(draw), with_damage(draw, trace) if trace and draw.random() < 0.1 else trace)


def judge_case(draw: Random) -> Case:
    """Draws a log of a trace, seldom with damage."""
    trace = drawn_trace(draw)
    log = logs.log_of(draw, trace) if trace else trace
    return Case(logs.judge_words(draw), with_damage(draw, log) if log and draw.random() < 0.05 else log)


def respond_case(draw: Random) -> Case:
    """Draws a field file, at times with hostile values or damage."""
    value = reports.field_file(draw)
    return Case(["respond"], perhaps_damaged(draw, value))


def band_case(draw: Random) -> Case:
    """Draws a question about progression bands, sometimes with hostile values or damage."""
    return Case(["band"], perhaps_damaged(draw, reports.street(draw)))


def perhaps_damaged(draw: Random, value: dict) -> bytes:
    """Returns a text of a value, at times with hostile values or damage."""
    kind = draw.random()
    text = text_of(draw, hostile(draw, value) if kind < 0.3 else value)
    return damaged(draw, text) if kind > 0.93 else text


def word_case(draw: Random) -> Case:
    """Draws words, with a small scenario on standard input."""
    words = reports.made_words(draw) if draw.random() < 0.5 else reports.odd_words(draw)
    return Case(words, b'{"cabinets":[{"base":"max8"}],"rounds":1,"ticks":60,"version":1}')


DRAWS: dict[CaseKind, Callable[[Random], Case]] = {
    CaseKind.RUN: run_case,
    CaseKind.HOSTILE: hostile_case,
    CaseKind.DAMAGED: damaged_case,
    CaseKind.CHECK: check_case,
    CaseKind.LIVE: live_case,
    CaseKind.OVERLAPS: overlap_case,
    CaseKind.JUDGE: judge_case,
    CaseKind.RESPOND: respond_case,
    CaseKind.BAND: band_case,
    CaseKind.WORDS: word_case,
}
OFTEN = {
    CaseKind.RUN: 46,
    CaseKind.HOSTILE: 16,
    CaseKind.DAMAGED: 6,
    CaseKind.CHECK: 14,
    CaseKind.LIVE: 12,
    CaseKind.OVERLAPS: 4,
    CaseKind.JUDGE: 8,
    CaseKind.RESPOND: 5,
    CaseKind.BAND: 5,
    CaseKind.WORDS: 4,
}


def kind_of(seed: int, number: int, kinds: list[CaseKind]) -> CaseKind:
    """Draws the kind of the case of a number."""
    return Random(f"{seed} {number} kind").choices(kinds, [OFTEN[kind] for kind in kinds])[0]


def case_of(seed: int, number: int, kind: CaseKind) -> Case:
    """Draws the case of a number; the same for the same seed."""
    return DRAWS[kind](Random(f"{seed} {number} {kind.value}"))
