"""Pictures of a table, with a frontier found by hand."""

import xml.etree.ElementTree as xml

import pytest
from streettools.words import run
from streettools.sweep.pictures import frontier
from streettools.sweep.results import Results

TABLE = """\
run,a,b,seed,outcome,words,scenario,wait_mean,through_outbound
1,1,x,1,done,,0,10.0,0.2
2,1,x,2,done,,0,20.0,0.4
3,1,y,1,done,,0,12.0,0.3
4,2,x,1,done,,0,30.0,0.9
5,2,y,1,done,,0,40.0,0.8
6,3,x,1,refused,scenario: limit .,0,,
"""


@pytest.fixture
def table(tmp_path, monkeypatch):
    """A folder with a table."""
    monkeypatch.chdir(tmp_path)
    (tmp_path / "t.csv").write_text(TABLE)
    return tmp_path


def test_a_frontier_has_the_variants_that_none_is_better_than_in_both(table):
    results = Results(table / "t.csv")
    found = frontier(results, [("wait_mean", 1), ("through_outbound", -1)], "f.svg")
    assert [(int(a), b) for a, b in found] == [(1, "y"), (2, "x")]


def test_means_are_over_runs_that_are_alike(table):
    spots = Results(table / "t.csv").grouped(["a", "b"], "wait_mean")
    assert {key: (it.least, it.mean, it.greatest) for key, it in spots.items()}[1, "x"] == (10, 15, 20)


@pytest.mark.parametrize("words", [
    ["lines", "--x", "a", "--of", "wait_mean", "--by", "b"],
    ["map", "--x", "a", "--y", "b", "--of", "through_outbound"],
    ["frontier", "--least", "wait_mean", "--greatest", "through_outbound"],
], ids=lambda it: it[0])  # fmt: skip
def test_each_kind_of_picture_is_drawn_and_comes_out_the_same(words, table):
    for name in ("one.svg", "two.svg"):
        assert run(["sweep", "draw", words[0], "t.csv", *words[1:], "-o", name]) == 0
    assert xml.parse(table / "one.svg").getroot().tag.endswith("svg")
    assert (table / "one.svg").read_bytes() == (table / "two.svg").read_bytes()


@pytest.mark.parametrize(("words", "said"), [
    (["lines", "t.csv", "--x", "c", "--of", "wait_mean", "-o", "a.svg"], "has no column c: it has run, a, b"),
    (["lines", "t.csv", "--x", "a", "--of", "b", "-o", "a.svg"], "the column b has no numbers"),
    (["frontier", "t.csv", "--least", "wait_mean", "-o", "a.svg"], "a frontier needs two measures"),
    (["lines", "none.csv", "--x", "a", "--of", "b", "-o", "a.svg"], "none.csv: No such file or directory"),
])  # fmt: skip
def test_what_can_not_be_drawn_is_one_line(words, said, table, capsys):
    assert run(["sweep", "draw", *words]) in (1, 2)
    err = capsys.readouterr().err
    assert said in err and err.count("\n") == 1
