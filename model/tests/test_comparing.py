"""A program that answers otherwise than the model is told, and a case that differs is made small."""

import json

from model.commands import answer
from model.comparing import compared, shrunk
from model.drawn.cases import OFTEN, Case, CaseKind, case_of, kind_of
from model.promises.judging import broken_promises

ONE_CABINET = b'{"cabinets":[{"base":"max8"}],"rounds":1,"ticks":60,"version":1}'
SIX_LINES = b"""S {"cabinets":[{"base":"max8"}],"rounds":1,"ticks":60,"version":1}
F 1 0 RRRRRRRRRRRRRRRR DDDDDDDDDDDDDDDD S 0 0 0
R 1
J 1 4*60
F 1 60 RGRRRGRRRRRRRRRR DDDDDDDDDDDDDDDD F 0 0 0
Z 1
"""


def stub(folder, output):
    """Writes a program that writes the same bytes whatever it reads."""
    (folder / "due").write_bytes(output)
    program = folder / "program"
    program.write_text(f"#!/bin/sh\ncat > /dev/null\ncat '{folder}/due'\n")
    program.chmod(0o755)
    return program


def test_the_six_lines_of_one_cabinet_agree(tmp_path):
    assert compared(stub(tmp_path, SIX_LINES), Case(["run"], ONE_CABINET)) is None


def test_another_byte_is_a_difference(tmp_path):
    difference = compared(stub(tmp_path, SIX_LINES.replace(b"F 1 60", b"F 1 61")), Case(["run"], ONE_CABINET))
    assert difference.what.startswith("line 5: ")


def test_another_status_is_a_difference(tmp_path):
    assert "ends with 0" in compared(stub(tmp_path, b""), Case(["run"], b"{}")).what


def test_a_case_that_differs_is_made_small():
    cabinets = [{"pattern": 255, "clock": 5, "cells": [["unit", 1, 3]]}, {}]
    inputs = [{"round": 1 + n, "cabinet": 1, "ped": 1 + n} for n in range(9)]
    large = {
        "version": 1,
        "rounds": 20,
        "ticks": 10,
        "cabinets": cabinets,
        "inputs": inputs,
        "master": {"poll_every": 1},
    }
    small = shrunk(
        Case(["run"], json.dumps(large).encode()), lambda case: b" X 0 0 0\n" in answer(["run"], case.data).output
    )
    assert json.loads(small.data)["cabinets"] == [{"pattern": 255}]
    assert len(small.data) < 80


def test_the_same_seed_draws_the_same_case():
    kinds = list(CaseKind)
    for number in range(30):
        kind = kind_of(5, number, kinds)
        assert case_of(5, number, kind) == case_of(5, number, kind)


def test_drawn_runs_keep_all_promises_and_check_says_yes_to_them():
    for number in range(12):
        case = case_of(6, number, CaseKind.RUN)
        told = answer(case.words, case.data)
        if told.status == 0 and len(told.output) < 30_000:
            assert broken_promises(told.output) == []
            assert answer(["check"], told.output).status == 0


def test_each_kind_is_drawn():
    assert {kind_of(7, number, list(CaseKind)) for number in range(400)} == set(OFTEN)
