"""The model gives what is due by the vectors, which others worked out: by hand, or by other programs."""

import json
from pathlib import Path

import pytest
from checking import listed, orders, spelled, trace_of
from checking import damaged as damaged_text

from model.commands import answer

TOP = Path(__file__).resolve().parents[2]
VECTORS = TOP / "vectors"
LONGEST = 60_000
"""The longest text of a trace that is gone through here, in bytes; vectors/README.md says how to compare all."""


def due_of(file):
    """Returns the scenario that a trace is due for."""
    return TOP / "scenarios" / f"{file.stem}.json" if file.parent.name == "shown" else file.with_suffix(".json")


def lines_of(told, kinds):
    """Returns the lines of these kinds among those that a command wrote."""
    return [line for line in told.output.decode().splitlines() if line[0] in kinds]


def short_traces():
    """Returns every third trace that isn't long."""
    files = [file for file in sorted(VECTORS.glob("*/*.trace")) if file.parent.name != "live"]
    return [file for file in files if file.stat().st_size <= LONGEST][::3]


@pytest.mark.parametrize("file", short_traces(), ids=lambda file: file.stem)
def test_run_writes_the_trace_due(file):
    told = answer(["run"], due_of(file).read_bytes())
    assert (told.status, told.said, told.output) == (0, b"", file.read_bytes())


def test_run_writes_the_frames_worked_out_by_hand():
    for _, worked in list(listed("worked.jsonl"))[::2]:
        told = answer(["run"], json.dumps(worked["scenario"]).encode())
        assert (told.status, lines_of(told, "F")) == (0, worked["frames"]), worked["name"]


def test_run_writes_the_lines_worked_out_by_hand():
    for _, worked in listed("worked_lines.jsonl"):
        scenario = worked["scenario"]
        if scenario["rounds"] * scenario["ticks"] * len(scenario["cabinets"]) > 4000:
            continue
        told = answer(["run"], json.dumps(scenario).encode())
        assert (told.status, lines_of(told, worked["kinds"])) == (0, worked["lines"]), worked["name"]


def test_scenarios_are_refused_with_the_line_due():
    for name, refusal in listed("refusals.jsonl"):
        told = answer(["run"], refusal["text"].encode("utf-8", "surrogatepass"))
        assert (told.status, told.output, told.said.decode()) == (2, b"", refusal["line"] + "\n"), name


def test_scenarios_are_accepted_and_run_as_worked_out_by_hand():
    for name, accepted in listed("accepted.jsonl"):
        if "lines" in accepted:
            told = answer(["run"], accepted["text"].encode())
            due = 0, b"", accepted["lines"]
            assert (told.status, told.said, lines_of(told, accepted["kinds"])) == due, name


def test_check_says_yes_to_traces_in_other_orders():
    for name in orders():
        if len(trace_of(name)) <= LONGEST // 2:
            assert answer(["check"], trace_of(name)) == answer(
                ["check"], trace_of(name.replace(".other", ".trace"))
            ), name


def test_check_names_the_first_fault_of_damaged_traces():
    for name, damage in list(listed("damaged.jsonl"))[::12]:
        text = damaged_text(damage)
        if len(text) <= LONGEST // 2:
            told = answer(["check"], text)
            assert (told.status, told.output, told.said.decode()) == (5, b"", damage["line"] + "\n"), name


def test_check_answers_the_texts_worked_out_by_hand():
    for name, worked in listed("worked_checks.jsonl"):
        text = spelled(worked["text"])
        if len(text) <= LONGEST:
            told, line = answer(["check"], text), worked.get("line")
            assert (told.status, told.said.decode()) == ((5, line + "\n") if line else (0, "")), name


def test_bands_are_those_worked_out():
    for name, worked in listed("worked_bands.jsonl"):
        told = answer(["band"], json.dumps(worked["asked"]).encode())
        if "lines" in worked:
            assert (told.status, told.output.decode().splitlines()) == (0, worked["lines"]), name
        else:
            assert (told.status, told.said.decode()) == (2, f"scenario: {' '.join(worked['refused'])}\n"), name


def test_field_files_give_the_scenarios_worked_out():
    for name, worked in listed("worked_fields.jsonl"):
        text = spelled(worked["text"])
        if len(text) > 1_000_000:
            continue
        told = answer(["respond"], text)
        if "line" in worked:
            assert (told.status, told.output, told.said.decode()) == (2, b"", worked["line"] + "\n"), name
        else:
            assert (told.status, told.output) == (0, spelled(worked["written"])), name


def test_overlaps_are_those_worked_out():
    for name, worked in listed("worked_overlaps.jsonl"):
        trace = (
            (VECTORS / f"{worked['of']}.trace").read_bytes()
            if "of" in worked
            else answer(["run"], json.dumps(worked["scenario"]).encode()).output
        )
        if len(trace) <= LONGEST:
            told = answer(worked["words"], trace)
            assert (told.status, told.output.decode(), told.said.decode()) == (
                worked["status"],
                worked["output"],
                worked["said"],
            ), name


def test_other_words_are_answered_as_worked_out():
    for name, worked in listed("worked_words.jsonl"):
        text = spelled(worked.get("text", []))
        if len(text) <= LONGEST:
            told = answer(worked["words"], text)
            assert (told.status, told.output.decode(), told.said.decode()) == (
                worked["status"],
                worked["output"],
                worked["said"],
            ), name


def test_words_that_are_no_command_get_the_line_of_usage():
    for words in (["check", "x"], ["generate", "--seed", "1"]):
        told = answer(words, b"")
        assert (told.status, told.said) == (1, b"usage: arterial run [--workers N] | check | generate | survey\n")
