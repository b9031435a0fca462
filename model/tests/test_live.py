"""Sessions of the model: the dialogues of vectors/live, in pieces too, and what a drawn session means as a run."""

import pytest
from sessions import dialogues

from model.commands import answer
from model.drawn.cases import CaseKind, case_of
from model.live import live
from model.promises.judging import broken_promises
from streettools.shared.session_record import trace_of_session

SEED, DRAWN = 52, 12


def in_pieces(data: bytes, size: int):
    """Returns what reads data in pieces of a size."""
    pieces = iter([data[at : at + size] for at in range(0, len(data), size)])
    return lambda: next(pieces, b"")


@pytest.mark.parametrize("due", dialogues(), ids=lambda due: due.name)
def test_a_dialogue_has_the_answers_due(due):
    told = answer(["live"], due.given)
    assert (told.status, told.output, told.said) == (due.status, due.due, due.said)


@pytest.mark.parametrize("size", [1, 7, 4096])
def test_input_in_pieces_has_the_same_answers(size):
    for due in dialogues():
        if due.status == 0:
            assert b"".join(live(in_pieces(due.given, size))) == due.due, due.name


def test_each_line_is_answered_before_more_is_read():
    due = next(due for due in dialogues() if due.name.startswith("02"))
    read, answers = [], live(lambda: read.pop() if read else pytest.fail("more was read than a line"))
    for line in due.given.splitlines(keepends=True):
        read.append(line)
        assert next(answers).endswith(b".\n")


def test_the_trace_of_a_drawn_session_is_one_and_keeps_what_is_promised():
    for number in range(DRAWN):
        case = case_of(SEED, number, CaseKind.LIVE)
        told = answer(case.words, case.data)
        if told.status == 0:
            trace = trace_of_session(case.data, told.output)
            assert answer(["check"], trace).status == 0, number
            assert broken_promises(trace) == [], number


def test_ticks_alone_to_the_last_round_give_the_lines_of_a_run():
    cabinets = b'"cabinets":[{"base":"max8"},{"pattern":1}],"master":{"poll_every":1}}\n'
    scenario = b'{"version":1,"rounds":3,"ticks":50,' + cabinets
    given = scenario + b"tick 50\n" * 3
    assert trace_of_session(given, answer(["live"], given).output) == answer(["run"], scenario).output
