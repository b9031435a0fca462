"""Which lines are lines of a trace, and where each may stand."""

import io

import pytest
from streettools.shared import lines
from streettools.shared.trace_records import Answered, Ended, Frame, Input, NotATrace, Noted
from streettools.shared.trace_reader import TraceReader

from .conftest import SMALL, STREET, VECTORS, run

GOOD = [
    b"F 1 60 RGYCRRRRRRRRRRRR DWFDDDDDDDDDDDDD P3t 0 0 1\n",
    b"F 4294967295 0 RRRRRRRRRRRRRRRR DDDDDDDDDDDDDDDD C255 1 2 3\n",
    b"R 12\n", b"M 1 fail\n", b"M 2 good\n", b"M 1 pattern 255\n", b"M 1 load 3 done\n", b"M 1 load 3 refused -5 2\n",
    b"J 1 0*2 4*60 0*1\n", b"L 1 2 accepted 1\n", b"L 1 2 refused 21 65535\n", b"A 1 3 -\n", b"A 1 1 30ff\n", b"Z 7\n",
]  # fmt: skip
BAD = [
    b"", b"R 12", b"R 012\n", b"R 4294967296\n", b"R 1 \n", b"r 1\n", b"M 1 pattern 256\n",
    b"M 1 load 3 refused -0 2\n",
    b"F 1 60 RGYC DWFD F 0 0 0\n", b"F 1 60 RGYCRRRRRRRRRRRR DWFDDDDDDDDDDDDD K256 0 0 1\n",
    b"F 1 60 RGYCRRRRRRRRRRRR DWFDDDDDDDDDDDDD P1 0 0 1\n", b"J 1\n", b"J 1 4*0\n", b"J 1 4*6 4*6\n", b"J 1 4*6  0*1\n",
    b"L 1 2 refused 256 1\n", b"A 1 1 3\n", b"A 1 1 3F\n", b"A 1 1 \n", b"Z 07\n",
]  # fmt: skip


@pytest.mark.parametrize("line", GOOD)
def test_a_line_of_a_trace_is_read(line):
    assert lines.record(line)


@pytest.mark.parametrize("line", BAD)
def test_another_text_is_refused(line):
    with pytest.raises(ValueError):
        lines.record(line)


def fault(text):
    """Returns the line at which a text stops being a trace, or None."""
    try:
        reader = TraceReader(io.BytesIO(text.encode()))
        list(reader.happenings())
    except NotATrace as found:
        return found.line
    return None if reader.whole else reader.line


@pytest.mark.parametrize("path", [*VECTORS, STREET])
def test_a_whole_trace_has_no_fault(path):
    assert fault(path.read_text()) is None


def test_each_fault_is_found_at_its_line():
    assert fault(SMALL) is None
    changes = [
        ("S {", "S [", 1), ('"ticks":60', '"tick":60', 1), ("F 1 0 ", "F 2 0 ", 2), ("R 1\n", "R 2\n", 3),
        ("J 1 4*60\nF", "J 2 4*60\nF", 4),
        ("J 1 4*60\nF", "J 1 4*61\nF", 4), ("J 1 0*1 4*60", "J 1 4*60", 7), ("F 1 60 ", "F 1 61 ", 5),
        ("F 1 160 ", "F 1 0 ", 10),
        ("F 1 200 ", "F 1 215 ", 14), ("Z 7\n", "Z 8\n", 24), ("Z 7\n", "Z 7", 24), ("Z 7\n", "", 24),
        ("Z 7\n", "Z 7\nZ 7\n", 25),
        ("R 7\n", "A 1 1 -\nR 7\n", 21),
    ]  # fmt: skip
    found = [fault(SMALL.replace(old, new, 1)) for old, new, _ in changes]
    assert found == [line for _, _, line in changes]


def test_what_comes_between_ticks_has_the_tick_before_it():
    reader = TraceReader(io.BytesIO(SMALL.encode()))
    inputs = [it for it in reader.happenings() if isinstance(it, Input)]
    assert inputs == [Input(1, 60, "veh", 4, True), Input(1, 240, "veh", 4, False)]


def test_replies_downloads_and_notes_have_their_ticks():
    with VECTORS[2].open("rb") as stream:
        found = list(TraceReader(stream).happenings())
    text = VECTORS[2].read_text().splitlines()
    assert sum(isinstance(it, Answered) for it in found) == sum(line.startswith("A ") for line in text)
    assert [it.tick for it in found if isinstance(it, Ended)][0] % 37 == 0
    assert [(it.cabinet, it.round) for it in found if isinstance(it, Noted)] == [(2, 13), (2, 21), (1, 36)]


MIXED = """\
2@14 1@25
2@48 veh@50 veh@59 F@60 1@73
2@104 3@110
3@130 L@143 2@143 F@144 1@144 1@154
ped@184 2@189
1@206 2@235
"""
"""What happens in each round of the trace `mixed`, and after which tick, worked out by hand from its journals."""


def word(happening):
    """Returns what happened, in a word, and its tick."""
    match happening:
        case Answered(way=way):
            return f"{way}@{happening.tick}"
        case Input(kind=kind):
            return f"{kind}@{happening.tick}"
    return f"{'F' if isinstance(happening, Frame) else 'L'}@{happening.tick}"


def test_any_order_of_a_journal_has_its_ticks():
    with VECTORS[3].open("rb") as stream:
        found = [
            it for it in TraceReader(stream).happenings() if isinstance(it, (Frame, Input, Answered, Ended)) and it.tick
        ]
    assert [word(it) for it in found] == MIXED.split()


def test_a_fault_is_told_and_writes_nothing_over_a_picture(tmp_path):
    picture = tmp_path / "rings.svg"
    picture.write_text("as it was")
    for text, line in ((SMALL.replace("F 1 160 R", "F 1 160 B"), 10), (SMALL.replace("Z 7\n", ""), 24)):
        answer = run("rings", "-o", picture, given=text)
        assert (answer.returncode, answer.stdout) == (2, "")
        assert answer.stderr.startswith(f"look: line {line} is not a line of a trace")
        answer = run("events", "--start", "2026-11-27T06:00:00", "-o", picture, given=text)
        assert answer.returncode == 2
        assert [it.name for it in tmp_path.iterdir()] == ["rings.svg"] and picture.read_text() == "as it was"


def test_faulty_words_are_told():
    for words in (["rings", "--cabinet", "2", "-o", "x.svg"], ["rings", "-o", "x.gif"],
                  ["rings", "--from", "42", "-o", "x.svg"], ["coordination", "--travel", "5", "-o", "x.svg"],
                  ["events"], []):  # fmt: skip
        answer = run(*words, given=SMALL)
        assert (answer.returncode, answer.stdout) == (2, "") and answer.stderr
