"""docs/scenario.schema.json takes each scenario that the program takes, and refuses each text whose fault a schema can see."""

import json
import pathlib
import re

import pytest

jsonschema = pytest.importorskip("jsonschema")

ROOT = pathlib.Path(__file__).resolve().parent.parent.parent
# what a schema can't see: counts and products, the rules of tables, the hundred and first download, an arrival after the departure
UNSEEN = re.compile(r"scenario: (cabinet \d+ breaks|limit (rounds|\.|.*\.(round|cabinet|departure)|loads\[\d+\])$)")
# and numbers that are written with a point, an exponent or a minus before 0
ODD_NUMBER = re.compile(r"[:\[,]\s*(-0|-?\d+(\.\d+)?[eE][+-]?\d+|-?\d+\.\d+)\s*[,\]}]")


@pytest.fixture(scope="module")
def schema():
    """Returns the validator of the schema."""
    text = json.loads((ROOT / "docs/scenario.schema.json").read_text(encoding="utf-8"))
    jsonschema.Draft202012Validator.check_schema(text)
    return jsonschema.Draft202012Validator(text)


def has_equal_names(text):
    """Says whether an object of the text has two equal names."""
    objects = []
    json.loads(text, object_pairs_hook=objects.append)
    return any(len(dict(pairs)) < len(pairs) for pairs in objects)


def texts():
    """Yields each text of the vectors with the line that refuses it, or None."""
    for name in ("accepted", "refusals"):
        for line in (ROOT / f"vectors/{name}.jsonl").read_text(encoding="utf-8").splitlines():
            vector = json.loads(line)
            yield vector["text"], vector.get("line")


def test_takes_every_scenario(schema):
    files = [file for file in ROOT.glob("scenarios/*.json") if not file.match("*.field.json")] + list(ROOT.glob("vectors/*/*.json"))
    assert files
    for file in files:
        errors = [error.message for error in schema.iter_errors(json.loads(file.read_text(encoding="utf-8")))]
        assert not errors, file.name
    for name in ("worked", "worked_lines"):
        for line in (ROOT / f"vectors/{name}.jsonl").read_text(encoding="utf-8").splitlines():
            vector = json.loads(line)
            assert schema.is_valid(vector["scenario"]), vector["name"]


def test_takes_each_accepted_text_and_refuses_the_others(schema):
    refused = 0
    for text, line in texts():
        try:
            value = json.loads(text)
        except (ValueError, RecursionError):
            continue
        if line is None:
            assert schema.is_valid(value), text
        elif schema.is_valid(value):
            assert UNSEEN.match(line) or ODD_NUMBER.search(text) or has_equal_names(text), (line, text)
        else:
            refused += 1
    assert refused > 200
