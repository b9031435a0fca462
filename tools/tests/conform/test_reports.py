"""Reports of a device with a fault: text, JSON, JUnit XML, a page with a picture; and the words of differences."""

import json
import re
from xml.etree import ElementTree

import pytest
from streettools.conform import sentences
from streettools.conform.comparing import Compared, parting
from streettools.conform.driving import Driven
from streettools.conform.expected import START, Expected, Frame
from streettools.conform.objects import Display
from streettools.conform.watching import Sample, Span

from .conftest import Device, conform

ENDS = ("txt", "json", "xml", "html", "svg")
SCRIPT = '[[test]]\nname = "of-<nine>"\nsubject = "A & B"\nsteps = ["call 9 at 8 s"]\nlasts = 10\n'


@pytest.fixture(scope="module")
def written(tmp_path_factory):
    """All reports of a mutant, of a test that differs, one that passes and one that the device can't do."""
    folder = tmp_path_factory.mktemp("reports")
    (folder / "own.toml").write_text(
        SCRIPT + '[[test]]\nname = "rest"\nlasts = 8\n[[test]]\nname = "short"\nsteps = ["call 4 at 7 s"]\nlasts = 25\n'
    )
    outputs = [it for end in ENDS for it in ("-o", folder / f"report.{end}")]
    with Device(mutant="yellow-short") as device:
        done = conform(device.where, folder / "own.toml", "--speed", "step", *outputs)
    assert (done.returncode, done.stdout) == (2, ""), done.stderr
    return {end: (folder / f"report.{end}").read_text() for end in ENDS}


def test_the_text_says_what_is_wrong(written):
    lines = [it.strip() for it in written["txt"].splitlines()]
    assert lines[-1] == "3 tests: 1 pass, 1 differ, 1 can't tell"
    lasts = "its yellow change lasts 3.8 s; expected 4.0 s"
    assert f"phase 2 turns to red clearance at 19.9 s; expected at 20.1 s ({lasts})" in lines
    assert "unsafe: phase 2 yellow lasted 3.8 s; the plan has 4.0 s at 19.9 s" in lines


def test_json_has_the_first_difference_of_both_sides(written):
    found = json.loads(written["json"])
    assert found["totals"] == {"pass": 1, "differ": 1, "can't tell": 1}
    it = found["tests"][2]["first_difference"]
    assert (it["tick"], it["device"]["vehicles"], it["expected"]["vehicles"][:8]) == (199, "RCRRRCRR", "RYRRRYRR")


def test_junit_has_a_failure_and_a_skipped_test(written):
    (suite,) = ElementTree.fromstring(written["xml"])
    assert (suite.get("tests"), suite.get("failures"), suite.get("skipped")) == ("3", "1", "1")
    cases = {it.get("name"): it for it in suite}
    assert set(cases) == {"of-<nine>", "rest", "short"}
    assert "first difference at 19.9 s" in cases["short"].find("failure").get("message")
    assert cases["of-<nine>"].find("skipped").text == "the device can't do this test: phase 9 isn't enabled"
    assert len(cases["rest"]) == 0


def test_the_page_has_a_picture_and_loads_nothing(written):
    page = written["html"]
    assert page.count("<svg") == 1 and 'id="device-difference"' in page and 'id="proved cabinet-difference"' in page
    assert "of-&lt;nine&gt;" in page and "of-<nine>" not in page
    links = re.findall(r'(?:href|src)="([^"]*)"', page)
    assert all(it.startswith("#") for it in links if not it.startswith("http://www.w3.org")), links


def test_the_picture_is_that_of_the_test_that_differs(written):
    assert "short: differ" in written["svg"] and written["svg"].count("-difference") == 2


# the words of differences


def sides(device, due, pedestrians=None):
    """Returns what both sides showed, from the letters of phase 1 at each tick."""
    walks = pedestrians or ("D" * len(device), "D" * len(due))
    samples = [Sample(Span(at, at), Display(it + "R" * 7, walks[0][at] + "D" * 7, 254)) for at, it in enumerate(device)]
    frames = [
        Frame(START + at, it + "R" * 15, walks[1][at] + "D" * 15, "F", 0, 0) for at, it in enumerate(due)
    ]  # fmt: skip
    expected = Expected(frames, ticks=[it.tick for it in frames])
    driven = Driven(samples)
    return sentences.sentences(driven, Compared(expected, (), parting(driven, expected, True)))


@pytest.mark.parametrize(
    "device, due, words",
    [
        ("RGGYYYCCRRRR", "RGGYYYYYCCRR", "phase 1 turns to red clearance at 0.1 s; expected at 0.3 s "
         "(its yellow change lasts 0.3 s; expected 0.5 s)"),
        ("RGGYYYYYCCRR", "RGGYYYCCRRRR", "phase 1 still shows yellow change at 0.1 s; expected red clearance since "
         "0.1 s; it turns to that at 0.3 s (its yellow change lasts 0.5 s; expected 0.3 s)"),
        ("RRRRRRRRRRRR", "RRRGGGGGGGGG", "phase 1 still shows red at -0.2 s; expected green since -0.2 s; "
         "it doesn't turn to that in this test"),
        ("RRRGGGGGGGGG", "RRRRRRRRRRRR", "phase 1 turns to green at -0.2 s; expected red for the next 40 s"),
        ("RGGGGG", "RGGGGG", None),
    ],
)  # fmt: skip
def test_a_difference_in_words(device, due, words):
    assert sides(device, due) == ([words] if words else [])


def test_a_walk_that_is_cut_in_words():
    found = sides("GGGGGGGGG", "GGGGGGGGG", ("DWWWFFFDD", "DWWWWFFFD"))
    words = "phase 1 turns to flashing don't walk at -0.1 s; expected at 0.0 s (its walk lasts 0.3 s; expected 0.4 s)"
    assert found == [words]
