"""The reader of tables: its first fault is raised, or all faults are collected."""

import pytest
from streettools.shared.fault import Fault
from streettools.shared.given import Defect, Given, Wrong


def small(value):
    """Reads a number below 10."""
    if value >= 10:
        raise Wrong(f"{value} is not below 10")
    return value


TABLE = {"titel": "x", "count": 12, "phase": {"2 6": {"green": 11}, "x": {}, "4": 1}, "row": [{"green": 30}, {}]}


def test_all_faults_are_collected_with_their_places_in_words():
    top = Given(TABLE, faults=[])
    top.allow(("title", "count", "phase", "row"))
    assert top.read("count", small, 5) == 5 and top.read("none", small, 7) == 7
    assert [(number, it.read("green", small)) for number, it in top.numbered("phase", 16)] == [(2, None), (6, None)]
    assert [(number, it.read("green", small)) for number, it in top.tables("row")] == [(1, None), (2, None)]
    assert top.below("count").table == {}
    assert list(map(str, top.faults)) == [
        "titel: is unknown; did you mean title?", "count: 12 is not below 10", "phase 2, green: 11 is not below 10",
        "phase 6, green: 11 is not below 10", "phase: 'x' is not a phase from 1 to 16", "phase 4: has to be a table",
        "row 1, green: 30 is not below 10", "count: has to be a table",
    ]  # fmt: skip
    assert top.faults[1] == Defect("count", "12 is not below 10")


@pytest.mark.parametrize(("read", "line"), [
    (lambda top: top.read("count", small), "study: count 12 is not below 10"),
    (lambda top: [it.read("green", small) for _, it in top.tables("row")], "study: row[0].green 30 is not below 10"),
    (lambda top: top.below("phase").end(), "study: phase.2 6 is unknown"),
    (lambda top: top.need("name", str), "study: name is missing"),
    (lambda top: top.take("count", str), "study: count has to be a text"),
    (lambda top: top.each("phase", dict), "study: phase has to be a list"),
    (lambda top: top.allow(("title",)), "study: titel is unknown; did you mean title?"),
])  # fmt: skip
def test_the_first_fault_is_raised_with_its_path(read, line):
    with pytest.raises(Fault) as raised:
        read(Given(TABLE, "study"))
    assert str(raised.value) == line


@pytest.mark.parametrize("text", ["Main\x1b[2J", "\x9b31m", "a\nb", "a\x00", "A\u202eB"])
def test_texts_that_a_terminal_obeys_are_refused_and_not_repeated(text):
    """An escape, the same in one character, a line end, a zero, text from right to left."""
    for read in (lambda it: it.take("name", str), lambda it: it.texts("names")):
        with pytest.raises(Fault) as raised:
            read(Given({"name": text, "names": ["a", text]}, "study"))
        said = str(raised.value)
        assert said.endswith("has characters that can't be shown") and said.isprintable()


def test_numbers_that_a_name_has_twice_are_a_fault():
    top = Given({"splits": {"2 6": 10, "6": 20, "4": 5}}, faults=[])
    assert top.spread("splits", 16).table == {"2": 10, "6": 20, "4": 5}
    assert list(map(str, top.faults)) == ["splits, 6: this number is a duplicate"]
