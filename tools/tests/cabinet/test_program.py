"""Which program a live cabinet asks: the proved one; until there is one the model, which is told; never another."""

import pathlib

import pytest
from streettools.shared import program

MISSING = "there is no proved program here yet: ./arterial prove proves and builds it"


@pytest.fixture
def finder(tmp_path, monkeypatch):
    """Lets a script stand for the one that finds the program of a checkout."""
    monkeypatch.delenv("ARTERIAL_PROGRAM", raising=False)
    monkeypatch.setattr(program, "OWN", str(tmp_path / "none"))
    monkeypatch.setattr(program, "FINDER", str(tmp_path / "finder"))

    def done(text):
        (tmp_path / "finder").write_text(f"#!/bin/sh\n{text}\n")
        (tmp_path / "finder").chmod(0o755)

    return done


def test_a_proved_program_answers_without_a_word(finder):
    finder("echo /bin/true")
    said = []
    assert program.answering(None, said.append) == pathlib.Path("/bin/true").resolve()
    assert said == []


def test_until_a_program_is_proved_the_model_answers_and_is_told(finder):
    finder(f"echo '{MISSING}' >&2; exit 125")
    said = []
    assert str(program.answering(None, said.append)).endswith("/model/program")
    assert said == [f"{MISSING}; until then the model in plain Python answers"]


def test_a_program_that_was_put_in_the_place_of_the_proved_one_is_refused(finder):
    finder("echo 'the program is not the one that was proved' >&2; exit 123")
    with pytest.raises(program.NoProgram, match="not the one that was proved"):
        program.answering(None, lambda line: None)


def test_the_model_stands_for_no_program_that_is_named(finder, tmp_path):
    finder("exit 125")
    with pytest.raises(program.NoProgram, match="no program at"):
        program.answering(str(tmp_path / "other"), lambda line: None)
