"""docs/field.schema.json takes each field file that the program takes, and refuses each text whose fault a schema can see."""

import json
import pathlib
import re

import pytest

jsonschema = pytest.importorskip("jsonschema")

ROOT = pathlib.Path(__file__).resolve().parent.parent.parent
HERE = "https://arterial.invalid/docs/"
# what a schema can't see: a scenario's rules, counts and products, and what lies across the lists of a field file
UNSEEN = re.compile(
    r"scenario: (cabinet \d+ breaks|limit (\.|scenario|scenario\.rounds|respond|respond\.period|.*\.(round|cabinet)|respond\.sections\[\d+\]\.steps\[\d+\])$"
    r"|field (bank\[\d+\]|pulses\[\d+\]|respond\.sections\[\d+\]|scenario\.master\.schedule)$)"
)
# and numbers that are written with a point
POINT = re.compile(r":-?\d+\.\d+[,}]")
LONGEST = 100_000
"""Longer texts, of which a schema can't see the fault, take minutes."""


@pytest.fixture(scope="module")
def schema():
    """Returns the validator of the schema, with that of a scenario to which it refers."""
    field, scenario = (json.loads((ROOT / f"docs/{name}.schema.json").read_text(encoding="utf-8")) for name in ("field", "scenario"))
    jsonschema.Draft202012Validator.check_schema(field)
    inside = {**field["$defs"], "scenario": {**scenario, "$id": f"{HERE}scenario.schema.json"}}
    return jsonschema.Draft202012Validator({**field, "$id": f"{HERE}field.schema.json", "$defs": inside})


def texts():
    """Yields each text of the vectors that isn't too long, with the line that refuses it, or None."""
    for line in (ROOT / "vectors/worked_fields.jsonl").read_text(encoding="utf-8").splitlines():
        vector = json.loads(line)
        text = "".join(part if isinstance(part, str) else part[0] * part[1] for part in vector["text"])
        if len(text) < LONGEST:
            yield text, vector.get("line")


def test_takes_every_field_file(schema):
    files = list(ROOT.glob("scenarios/*.field.json"))
    assert files
    for file in files:
        errors = [error.message for error in schema.iter_errors(json.loads(file.read_text(encoding="utf-8")))]
        assert not errors, file.name


def test_takes_each_text_that_is_answered_and_refuses_the_others(schema):
    taken = refused = 0
    for text, line in texts():
        try:
            value = json.loads(text)
        except ValueError:
            continue
        if line is None:
            assert schema.is_valid(value), text
            taken += 1
        elif schema.is_valid(value):
            assert UNSEEN.match(line) or POINT.search(text), (line, text)
        else:
            refused += 1
    assert taken > 60 and refused > 50
