"""A session with a program that dies, isn't there, is silent, or writes what it shouldn't: one line, and no process is
left. Small scripts stand for the program; docs/LIVE.md has the protocol."""

import asyncio
import signal
import time

import pytest
from streettools.cosim import session as recorded
from streettools.shared import program
from streettools.shared.fault import Fault
from streettools.shared.session import Answers, Rounds, Session
from streettools.street import session as asked_by_many

from .conftest import is_gone

SCENARIO = {"version": 1, "rounds": 2, "ticks": 10, "cabinets": [{}]}
FRAME = b"F 1 0 RRRRRRRRRRRRRRRR DDDDDDDDDDDDDDDD S 0 0 0"
OPENING = f"read line\nprintf '%s\\n' '{FRAME.decode()}' 'R 1' .\n"
WORKS = OPENING + "while read line; do echo .; done\nprintf 'J 1 4*10\\nZ 1\\n.\\n'\n"


@pytest.fixture
def script(tmp_path):
    """Writes a program, and says afterwards that none of it runs any longer."""
    path, pids = tmp_path / "program", tmp_path / "pids"

    def done(text):
        path.write_text(f"#!/bin/bash\necho $$ >>{pids}\n[ \"$1\" = live ] || exit 99\n{text}")
        path.chmod(0o755)
        return path

    yield done
    assert all(map(is_gone, map(int, pids.read_text().split() if pids.exists() else ())))


def open_session(path, seconds=20.0):
    return Session(path, SCENARIO, seconds)


async def ask_many(path, requests, seconds=20.0):
    """Asks all at once as a street does, and ends; returns the answers."""
    session = asked_by_many.Session(str(path), SCENARIO, lambda request, answer: None, seconds)
    await session.open()
    answers = await asyncio.gather(*map(session.ask, requests), return_exceptions=True)
    await session.close()
    return answers


def both(path, requests=(b"veh 1 2 on", b"tick 10"), seconds=20.0):
    """Yields the fault that each kind of session raises."""
    with pytest.raises(Fault) as waiting, open_session(path, seconds) as session:
        session.ask(list(requests))
        session.finish()
    with pytest.raises(Fault) as many:
        asyncio.run(ask_many(path, requests, seconds))
    return [waiting.value, many.value]


def test_each_request_has_its_answer_and_the_end_is_awaited(script):
    path = script(WORKS)
    with open_session(path) as session:
        assert session.opened == [FRAME, b"R 1"]
        assert session.ask([b"veh 1 2 on", b"tick 3"]) == [[], []]
        assert session.finish() == [[b"J 1 4*10", b"Z 1"]]
    assert asyncio.run(ask_many(path, [b"veh 1 2 on", b"tick 3"])) == [[], []]


@pytest.mark.parametrize("end, line, status", [
    ("echo 'out of memory' >&2; exit 6", "out of memory", 6),
    ("echo 'first' >&2; echo '  second' >&2; exit 1", "first; second", 1),
    ("exit 0", "the program ended with status 0", 0),
    ("kill -9 $$", "the program was ended by signal 9", -9),
])  # fmt: skip
def test_a_program_that_dies_in_the_middle_is_one_line(script, end, line, status):
    path = script(f"{OPENING}read line\n{end}\n")
    with pytest.raises(program.Died) as died, open_session(path) as session:
        session.ask([b"veh 1 2 on", b"tick 10"])
    assert (str(died.value), died.value.program_status, died.value.status) == (line, status, 1)
    if status:
        with pytest.raises(program.Died) as died:
            asyncio.run(ask_many(path, [b"veh 1 2 on", b"tick 10"]))
        assert (str(died.value), died.value.program_status) == (line, status)


def test_a_scenario_that_is_refused_is_the_programs_line_with_status_2(script):
    path = script("read line\necho 'scenario: not JSON' >&2\nexit 2\n")
    assert {(str(it), it.status) for it in both(path)} == {("scenario: not JSON", 2)}


def test_a_program_that_isnt_there_is_named(tmp_path):
    for asked in (lambda: open_session(tmp_path / "none"), lambda: asyncio.run(ask_many(tmp_path / "none", []))):
        with pytest.raises(FileNotFoundError) as fault:
            asked()
        assert str(fault.value.filename) == str(tmp_path / "none")


@pytest.mark.parametrize("text", [
    "sleep 60 & wait", OPENING + "sleep 60 & wait", OPENING + "sed -u 's/.*/./'; sleep 60",
])  # fmt: skip
def test_a_program_that_answers_nothing_in_time_is_ended(script, text):
    """It is silent from the start, or from the first request on, or it doesn't end with its input. What it has started
    is ended, too."""
    begun = time.monotonic()
    for fault in both(script(text), seconds=0.4):
        assert str(fault).endswith("was not done in 0.4 s") and fault.status == 1
    assert time.monotonic() - begun < 20


def test_a_program_that_answers_too_much_is_ended(script):
    path = script(OPENING + "read line\ncat <<'END'\n.\n.\n.\nEND\ncat\n")
    with pytest.raises(Fault, match="3 answers to 2 requests"), open_session(path) as session:
        session.ask([b"veh 1 2 on", b"tick 10"])


def test_an_answer_without_an_end_is_bounded(script, monkeypatch):
    monkeypatch.setattr("streettools.shared.session.LONGEST", 100_000)
    for fault in both(script(OPENING + "yes 'F 1 0'")):
        assert str(fault) == "the program wrote an answer of more than 100000 octets"


def test_a_caller_that_is_interrupted_while_an_answer_is_under_way_leaves_no_process(script, tmp_path):
    """The first round is answered, the second hangs when Ctrl-C comes: the record is the first."""
    path = script(OPENING + "read line; printf 'J 1 4*10\\nR 2\\n.\\n'\nread line; sleep 60 & wait\n")
    session = recorded.Session(path, SCENARIO)

    def interrupt(number, frame):
        raise KeyboardInterrupt

    before = signal.signal(signal.SIGALRM, interrupt)
    try:
        session.tick(10, [])
        signal.setitimer(signal.ITIMER_REAL, 0.3)
        with pytest.raises(KeyboardInterrupt):
            session.tick(10, [])
    finally:
        signal.signal(signal.SIGALRM, before)
    session.close()
    assert session.save(tmp_path / "kept.trace")
    assert (tmp_path / "kept.trace").read_bytes().split(b"\n")[1:] == [FRAME, b"R 1", b"J 1 4*10", b"Z 1", b""]


def test_a_request_that_is_refused_is_a_fault_with_the_line(script):
    with pytest.raises(Fault, match=r"the session refuses tick 11: \? range"), open_session(
        script(OPENING + "read line; printf '? range\\n.\\n'; cat")
    ) as session:
        session.ask([b"tick 11"])


def test_more_requests_than_a_pipe_holds_are_answered(script):
    """A program that answers each line with 200 octets, while a megabyte of requests is written."""
    line = "x" * 200
    with open_session(script(f"{OPENING}sed -u 's/.*/{line}\\n./'")) as session:
        found = session.ask([b"ped 1 2" + b" " * 100] * 10_000)
    assert len(found) == 10_000 and all(it == [line.encode()] for it in found)


@pytest.mark.parametrize("size", [1, 2, 3, 7, 100])
def test_answers_are_the_same_in_pieces_of_any_size(size):
    text = b".\nF 1\n.\n.\nJ 1 4*1\nR 2\n.\nF .\n.\n"
    answers = Answers()
    found = [it for at in range(0, len(text), size) for it in answers.fed(text[at : at + size])]
    assert found == [[], [b"F 1"], [], [b"J 1 4*1", b"R 2"], [b"F ."]]


def test_ticks_are_requested_round_by_round():
    """Rounds of 10 ticks: 7, then 15, are 7, 3, 10, 2."""
    rounds = Rounds(10)
    assert [*rounds.requests(7), *rounds.requests(15)] == [b"tick 7", b"tick 3", b"tick 10", b"tick 2"]
    assert (rounds.left, rounds.taken) == (8, 22)
