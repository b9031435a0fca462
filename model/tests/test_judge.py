"""The model's judge of logs: what the vectors expect, and what it means to look back."""

import json

import pytest
from breaking import cases as broken_cases
from checking import listed, trace_of
from judging import logs

from model.commands import answer

EVERY = list(logs())
CLAUSES = ("apart", "order", "clearance", "short green", "pedestrian", "on green")


def differences(cases):
    """Returns the titles of the cases whose answers aren't the expected ones."""
    found = []
    for name, title, words, text, expected in cases:
        told = answer(words, text)
        if (told.status, told.output, told.said) != expected:
            found.append(f"{name} ({title})")
    return found


def test_logs_worked_out_by_hand_show_the_breaches_expected():
    assert differences(it for it in EVERY if it[0].startswith("judged/worked")) == []


def test_broken_traces_show_the_breaches_that_they_were_broken_with():
    assert differences(it for it in EVERY if it[0].startswith("judged/broken")) == []


def test_all_traces_of_the_vectors_are_accepted():
    traces = [it for it in EVERY if it[1] == "a trace"]
    assert len(traces) > 130 and differences(traces) == []


@pytest.mark.parametrize("clause", CLAUSES)
def test_each_clause_is_broken_in_twenty_ways_by_hand_and_by_script(clause):
    for name in ("judged/worked.jsonl", "judged/broken.jsonl"):
        logs = {json.dumps({**it, "name": ""}) for _, it in listed(name) if it["name"].startswith(clause)}
        assert len(logs) >= 20, name


def test_the_file_of_broken_traces_is_the_one_that_the_script_writes():
    assert [it for _, it in listed("judged/broken.jsonl")] == list(broken_cases())


def test_a_log_is_answered_line_by_line():
    """Each prefix of a log is answered with a prefix of the answer: a line's breaches don't depend on later lines."""
    text = trace_of("shown/detectors.trace").replace(b" RYRRR", b" RCRRR")
    lines = text.splitlines(keepends=True)
    whole = answer(["judge"], text).output.splitlines(keepends=True)[:-1]
    assert whole
    for count in range(1, len(lines), 7):
        told = answer(["judge"], b"".join(lines[:count])).output.splitlines(keepends=True)
        breaches = [it for it in told if it.startswith(b"B ")]
        assert breaches == whole[: len(breaches)]


@pytest.mark.parametrize(
    "words",
    [["--tolerance"], ["--tolerance", "21"], ["--tolerance", "01"], ["--joined", "--joined"], ["--joined", "2"]],
)
def test_other_words_are_refused(words):
    assert answer(["judge", *words], b"").status == 1


@pytest.mark.parametrize(
    ("text", "said"),
    [
        (b"", b"scenario: not JSON\n"),
        (b"F 1 0\n", b"scenario: not JSON\n"),
        (b"S no\n", b"scenario: not JSON\n"),
        (b"S {}\n", b"scenario: field version\n"),
        (b"S " + b" " * 16_777_215, b"scenario: limit .\n"),
    ],
)
def test_a_first_line_without_a_scenario_is_refused(text, said):
    told = answer(["judge"], text)
    assert (told.status, told.output, told.said) == (2, b"", said)


def test_bytes_after_the_last_newline_are_ignored():
    text = b'S {"version":1,"rounds":1,"ticks":1,"cabinets":[{}]}'
    assert answer(["judge"], text).output == answer(["judge"], text + b"\nF 1 0 nonsense").output == b"Z 1 0\n"
