"""A page as a file: what is packed in it is the trace, it asks for nothing outside itself, its colours stay apart, and
bad input is told as for the other pictures."""

import base64
import json
import re
import sys
import zlib
from array import array
from itertools import accumulate, combinations

import pytest
from streettools.look.page import colours, writing

from .conftest import PAIR, SMALL, STREET, VECTORS, run

NO_LIBRARY = not writing.LIBRARY.exists()
pytestmark = pytest.mark.skipif(NO_LIBRARY, reason="node-d3 is not installed")


class Unpacked:
    """A page's file taken apart: its head, and each cabinet's columns by table and field."""

    def __init__(self, text):
        self.head = json.loads(re.search(r'<script id="head" type="application/json">(.*?)</script>', text, re.S)[1])
        octets = zlib.decompress(
            base64.b64decode(re.search(r'<script id="data" type="text/plain">(.*?)</script>', text, re.S)[1])
        )
        self.columns = {}
        for table, fields in self.head["fields"].items():
            counts = self.head["counts"][table]
            for field in fields:
                size = 4 * sum(counts)
                numbers, octets = self.numbers(octets[:size], field), octets[size:]
                for place, count in enumerate(counts):
                    column, numbers = numbers[:count], numbers[count:]
                    values = accumulate(column) if field == "tick" else column
                    self.columns[place + 1, table, field] = list(values)
        assert octets == b""

    @staticmethod
    def numbers(octets, field):
        """Returns numbers out of four planes of octets, the lowest first."""
        size = len(octets) // 4
        joined = bytearray(4 * size)
        for place in range(4):
            joined[place::4] = octets[place * size : (place + 1) * size]
        found = array("i" if field == "error" else "I", bytes(joined))
        if sys.byteorder == "big":
            found.byteswap()
        return found

    def rows(self, cabinet, table):
        """Returns the rows of a cabinet's table."""
        return list(zip(*(self.columns[cabinet, table, field] for field in self.head["fields"][table])))

    def text(self, kind, number):
        """Returns a text by its number."""
        return self.head["texts"][kind][number]


@pytest.fixture
def paged(look, tmp_path):
    """Writes a page and takes it apart."""

    def done(*words, given=None):
        path = tmp_path / "page.html"
        look("page", "-o", path, *words, given=given)
        return Unpacked(path.read_text(encoding="utf-8"))

    return done


@pytest.mark.parametrize("path", [*VECTORS, STREET])
def test_a_page_has_each_frame_of_the_trace(paged, path):
    page = paged(path)
    found = []
    for cabinet in range(1, len(page.head["cabinets"]) + 1):
        for tick, shown, mode, *rest in page.rows(cabinet, "frames"):
            words = ("F", cabinet, tick, page.text("shown", shown), page.text("modes", mode), *rest)
            found.append(" ".join(map(str, words)))
    due = [line for line in path.read_text().splitlines() if line.startswith("F ")]
    assert sorted(found) == sorted(due)


def marks(page, kind):
    """Returns the marks of a kind: cabinet, tick, words."""
    return [
        (cabinet["number"], tick, page.text("words", words))
        for cabinet in page.head["cabinets"]
        for tick, it, words in page.rows(cabinet["number"], "marks")
        if page.text("kinds", it) == kind
    ]


@pytest.mark.parametrize("path", VECTORS)
def test_notes_and_downloads_are_marks_with_the_words_of_their_lines(paged, path):
    page, lines = paged(path), [line.split(" ", 2) for line in path.read_text().splitlines()]
    ticks, turn, notes = page.head["ticks"], 0, []
    for words in lines:
        turn = int(words[1]) if words[0] == "R" else turn
        if words[0] == "M":
            notes.append((int(words[1]), (turn - 1) * ticks, f"master notes: {words[2]}"))
    assert sorted(marks(page, "note")) == sorted(notes)
    ended = [(int(cabinet), rest.split(" ")) for kind, cabinet, *(rest,) in (it for it in lines if it[0] == "L")]
    accepted = [
        (cabinet, f"download {it[0]} accepted, version {it[2]}") for cabinet, it in ended if it[1] == "accepted"
    ]
    refused = [
        (cabinet, f"download {it[0]} refused by rule {it[2]} in row {it[3]}")
        for cabinet, it in ended
        if it[1] == "refused"
    ]
    assert sorted((it[0], it[2]) for it in marks(page, "accepted")) == sorted(accepted)
    assert sorted((it[0], it[2]) for it in marks(page, "refused") if it[2].startswith("download")) == sorted(refused)


def test_a_car_on_the_side_street_has_its_calls_barriers_and_ends_of_greens(paged):
    """The car comes before tick 61 and leaves before tick 241; 2 and 6 end by a gap at 160, 4 and 8 at 315."""
    page = paged(given=SMALL)
    assert page.rows(1, "calls") == [(60, 0, 4, 1), (240, 0, 4, 0)]
    assert page.rows(1, "barriers") == [(215,), (370,)]
    ends = [(tick, phase, page.text("endings", ending)) for tick, phase, ending in page.rows(1, "greens")]
    assert ends == [(160, 2, "gap"), (160, 6, "gap"), (315, 4, "gap"), (315, 8, "gap")]


def test_local_zeros_are_late_or_early_as_the_clock_says(paged):
    """Both clocks show 840 at tick 0. The second offset is 100 ticks: at tick 60 its target is 800 of 900, and dwell
    makes the cycle begin 100 ticks later: it is early by 100, then met."""
    page = paged(given=PAIR)
    names = page.head["fields"]["zeros"]
    zeros = [[dict(zip(names, row)) for row in page.rows(cabinet, "zeros")] for cabinet in (1, 2)]
    assert [[(it["tick"], it["error"], it["met"], it["pickup"]) for it in of] for of in zeros] == [
        [(60, 0, 1, 1), (960, 0, 1, 0), (1860, 0, 1, 0)], [(60, -100, 0, 1), (1060, 0, 1, 0), (1960, 0, 1, 0)]
    ]  # fmt: skip


def test_a_page_asks_for_nothing_outside_itself(look, tmp_path):
    path = tmp_path / "page.html"
    look("page", "-o", path, given=SMALL)
    text = path.read_text(encoding="utf-8")
    assert not re.search(r"<(link|img|iframe|script[^>]*\ssrc)\b|@import|url\(", text)
    assert len(text) - len(writing.library(writing.LIBRARY)) < 100_000


def test_the_same_trace_gives_the_same_page(look, tmp_path):
    for name in ("one.html", "two.html"):
        look("page", "-o", tmp_path / name, STREET)
    assert (tmp_path / "one.html").read_bytes() == (tmp_path / "two.html").read_bytes()


def test_a_name_with_marks_of_html_stays_a_name(paged, tmp_path):
    names = tmp_path / "x.names.json"
    names.write_text(json.dumps({"title": "</script><b>A & B", "intersections": [{"name": "<i>Mill</i> St"}]}))
    page = paged("--names", names, given=SMALL)
    assert page.head["title"] == "</script><b>A & B"
    assert page.head["cabinets"][0]["title"] == "<i>Mill</i> St (cabinet 1)"


@pytest.mark.parametrize(
    "words, given, status, said",
    [
        (["-o", "page.svg"], SMALL, 2, "the page's name must end in .html"),
        ([], SMALL, 2, "-o/--output"),
        (["-o", "page.html"], SMALL.replace("F 1 160 ", "F 1 600 "), 2, "line 10 is not a line of a trace"),
        (["-o", "page.html"], SMALL.removesuffix("Z 7\n"), 2, "the trace ends before its Z line"),
        (["-o", "page.html"], "no trace", 2, "line 1 is not a line of a trace"),
        (["-o", "page.html", "--cabinets", "1,2"], SMALL, 2, "the trace has no cabinet 2"),
        (["-o", "page.html", "--cabinets", "1,1"], PAIR, 2, "a cabinet is named twice"),
        (["-o", "page.html", "--travel", "20,20"], PAIR, 2, "2 cabinets have 1 times of travel between them"),
        (["-o", "page.html", "--names", "/nowhere/x"], SMALL, 1, "/nowhere/x: No such file or directory"),
        (["-o", "/nowhere/page.html"], SMALL, 1, "No such file or directory"),
    ],
)
def test_bad_input_is_told_and_leaves_no_page(tmp_path, monkeypatch, words, given, status, said):
    monkeypatch.chdir(tmp_path)
    ran = run("page", *words, given=given)
    assert (ran.returncode, ran.stdout, list(tmp_path.iterdir())) == (status, "", [])
    assert said in ran.stderr and "Traceback" not in ran.stderr


def test_a_missing_library_is_named_with_what_installs_it(tmp_path, monkeypatch, capsys):
    from streettools.words import run as tool

    monkeypatch.setattr(writing, "LIBRARY", tmp_path / "d3.min.js")
    trace = tmp_path / "trace"
    trace.write_text(SMALL)
    assert tool(["look", "page", "--no-check", "-o", str(tmp_path / "page.html"), str(trace)]) == 1
    assert (
        capsys.readouterr().err.endswith("d3.min.js): apt-get install node-d3\n")
        and not (tmp_path / "page.html").exists()
    )


VISIONS = {
    "protanopia": ((0.152286, 1.052583, -0.204868), (0.114503, 0.786281, 0.099216), (-0.003882, -0.048116, 1.051998)),
    "deuteranopia": ((0.367322, 0.860646, -0.227968), (0.280085, 0.672501, 0.047413), (-0.011820, 0.042940, 0.968881)),
    "tritanopia": ((1.255528, -0.076749, -0.178779), (-0.078411, 0.930809, 0.147602), (0.004733, 0.691367, 0.303900)),
}
"""How light is seen with a deficiency of full severity, by red, green and blue (Machado, Oliveira and Fernandes,
2009)."""


def lab(colour, vision):
    """Returns a colour as it is seen, in CIE L*a*b* under D65."""
    parts = [int(colour[place : place + 2], 16) / 255 for place in (1, 3, 5)]
    light = [it / 12.92 if it <= 0.04045 else ((it + 0.055) / 1.055) ** 2.4 for it in parts]
    red, green, blue = (min(1, max(0, sum(one * other for one, other in zip(row, light)))) for row in vision)
    white = (0.95047, 1, 1.08883)
    rows = ((0.4124564, 0.3575761, 0.1804375), (0.2126729, 0.7151522, 0.0721750), (0.0193339, 0.1191920, 0.9503041))
    xyz = [(one * red + two * green + three * blue) / it for (one, two, three), it in zip(rows, white)]
    x, y, z = (it ** (1 / 3) if it > 216 / 24389 else (24389 / 27 * it + 16) / 116 for it in xyz)
    return 116 * y - 16, 500 * (x - y), 200 * (y - z)


@pytest.mark.parametrize("vision", VISIONS)
@pytest.mark.parametrize("group", ["SIGNALS", "BANDS", "MARKS"])
def test_colours_stay_apart_for_colour_blind_readers(vision, group):
    """A difference of 10 in CIE L*a*b* is plain to see where two colours lie side by side."""
    seen = {name: lab(colour, VISIONS[vision]) for name, colour in getattr(colours, group).items()}
    for one, other in combinations(seen, 2):
        difference = sum((a - b) ** 2 for a, b in zip(seen[one], seen[other])) ** 0.5
        assert difference >= 10, f"{one} and {other}"
