"""The program and the model on the same words and the same bytes; a difference made small."""

import json
import subprocess
import sys
from collections.abc import Callable, Iterator
from dataclasses import dataclass
from pathlib import Path
from typing import Any

sys.path.append(str(Path(__file__).resolve().parents[1] / "tools"))

from streettools.shared.session_record import trace_of_session  # noqa: E402

from model.commands import Answer, answer  # noqa: E402
from model.drawn.cases import Case  # noqa: E402
from model.promises.judging import broken_promises  # noqa: E402

SECONDS = 120
"""How long the program may take for a case."""
MOST_TRIES = 400
"""How many smaller cases are tried at the most."""


@dataclass(frozen=True)
class Difference:
    """How an answer of the program differs from that of the model, or what is wrong with both."""

    what: str


def program_answer(program: Path, case: Case) -> tuple[int, bytes, bytes]:
    """Returns what the program answers: the exit status, standard output and standard error."""
    ran = subprocess.run([program, *case.words], input=case.data, capture_output=True, timeout=SECONDS)
    return ran.returncode, ran.stdout, ran.stderr


def first_other_line(one: bytes, two: bytes) -> str:
    """Returns the first line in which two texts differ."""
    lines = zip(one.split(b"\n") + [b"(end)"], two.split(b"\n") + [b"(end)"])
    for number, (a, b) in enumerate(lines, 1):
        if a != b:
            shown, due = (line[:160].decode("latin-1") for line in (a, b))
            return f"line {number}: the program writes {shown!r}, the model {due!r}"
    return "the lines are the same"


def compared(program: Path, case: Case) -> Difference | None:
    """Returns how program and model differ on a case; None if they agree, and the trace of a run keeps all
    promises."""
    due: Answer = answer(case.words, case.data)
    status, output, said = program_answer(program, case)
    if (status, said) != (due.status, due.said):
        return Difference(
            f"the program ends with {status} {said[:120]!r}, the model with {int(due.status)} {due.said[:120]!r}"
        )
    if output != due.output:
        return Difference(first_other_line(output, due.output))
    return None if due.status else broken_by_trace(case, output)


def broken_by_trace(case: Case, output: bytes) -> Difference | None:
    """Returns what is wrong with the trace that a run wrote, or that a session results in, None if nothing is."""
    if case.words == ["live"]:
        output = trace_of_session(case.data, output)
        if told := answer(["check"], output).said:
            return Difference(f"both answer a session whose trace is none: {told[:120]!r}")
    elif case.words[:1] != ["run"]:
        return None
    broken = broken_promises(output)
    return Difference(f"both break a promise: {broken[0]}") if broken else None


def smaller_lists(value: list[Any]) -> Iterator[list[Any]]:
    """Yields a list without its halves, quarters and so on, and at the end without each item."""
    size = len(value)
    while size > 0:
        for at in range(0, len(value), size):
            yield value[:at] + value[at + size :]
        size //= 2


def smaller_values(value: Any) -> Iterator[Any]:
    """Yields smaller forms of a JSON value: names left out, lists shortened, numbers of rounds and ticks made less."""
    if isinstance(value, list):
        yield from smaller_lists(value)
        for at, it in enumerate(value):
            if isinstance(it, dict):
                yield from (value[:at] + [less] + value[at + 1 :] for less in smaller_values(it))
    if isinstance(value, dict):
        for name, it in value.items():
            yield {other: that for other, that in value.items() if other != name}
            if name in ("rounds", "ticks") and isinstance(it, int) and it > 1:
                yield from ({**value, name: less} for less in (it // 2, it - 1))
            elif isinstance(it, (dict, list)):
                yield from ({**value, name: less} for less in smaller_values(it))


def smaller_cases(case: Case) -> Iterator[Case]:
    """Yields smaller cases: of a JSON text by its value, of another text by its lines and its bytes."""
    try:
        value = json.loads(case.data)
    except ValueError:
        lines = case.data.splitlines(keepends=True)
        pieces = lines if len(lines) > 1 else [case.data[at : at + 1] for at in range(len(case.data))]
        yield from (Case(case.words, b"".join(less)) for less in smaller_lists(pieces))
        return
    yield from (Case(case.words, json.dumps(less, separators=(",", ":")).encode()) for less in smaller_values(value))


def shrunk(case: Case, differs: Callable[[Case], bool], tries: int = MOST_TRIES) -> Case:
    """Returns a smaller case that still differs, as small as this number of tries makes it."""
    left = tries
    is_smaller = True
    while is_smaller and left > 0:
        is_smaller = False
        for less in smaller_cases(case):
            left -= 1
            if left <= 0:
                break
            if differs(less):
                case, is_smaller = less, True
                break
    return case
