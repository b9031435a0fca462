"""What is wrong with the rows of a log is found and reported: an independent change of a good log, of which it is known
what must be found."""

import json
import random

import pytest

from .conftest import TOP, shown

SCENARIO = "street.json"
SHEET = TOP / "scenarios" / SCENARIO

class Rows:
    """The rows of a log, as lists of time, device, code and parameter."""

    def __init__(self, path):
        self.header, *lines = path.read_text().splitlines()
        self.rows = [line.split(",") for line in lines]

    def write(self, path):
        """Writes the log."""
        path.write_text("\n".join([self.header, *(",".join(row) for row in self.rows)]) + "\n")
        return path

    def moved(self, place, tenths):
        """Moves a row in time."""
        head, rest = self.rows[place][0][:-10], self.rows[place][0][-10:]
        at = 36_000 * int(rest[:2]) + 600 * int(rest[3:5]) + round(10 * float(rest[6:])) + tenths
        self.rows[place][0] = f"{head}{at // 36_000:02d}:{at // 600 % 60:02d}:{at // 10 % 60:02d}.{at % 10}"


@pytest.fixture
def rows(trace_of, events_of):
    """The rows of a good log."""
    return Rows(events_of(trace_of(SCENARIO), "2026-11-27"))


@pytest.fixture
def read(log, tmp_path):
    """Reads rows, and returns what is said; the lines are in a file `out`."""

    def done(rows, *words):
        path = rows.write(tmp_path / "changed.csv")
        return log("read", path, "--sheet", SHEET, "-o", tmp_path / "out", *words).err

    return done


@pytest.fixture
def good(read, rows, tmp_path):
    """What the cabinets of the good log show."""
    assert all(word not in read(rows) for word in ("missing", "apart", "duplicate", "order", "hole"))
    return {cabinet: shown(tmp_path / "out", cabinet) for cabinet in range(1, 5)}


def all_shown(tmp_path):
    """Returns what the cabinets show by the lines that were written."""
    return {cabinet: shown(tmp_path / "out", cabinet) for cabinet in range(1, 5)}


@pytest.mark.parametrize("code", [7, 8, 9, 10])
def test_a_lost_row_of_a_pair_is_reported_and_known_by_the_other(rows, read, good, tmp_path, code):
    lost = [place for place, row in enumerate(rows.rows) if row[2] == str(code) and row[1] == "2"][::3]
    for place in reversed(lost):
        del rows.rows[place]
    said = read(rows)
    assert f"changes with a missing row, known by the other row of the change: {len(lost)} (" in said
    assert "rows are missing" not in said
    assert all_shown(tmp_path) == good


def test_a_change_without_rows_is_reported_and_judged_from_scratch(rows, read, good, tmp_path):
    """Both rows of the beginning of a yellow are lost: its end shows that."""
    at = next(place for place, row in enumerate(rows.rows) if row[1:] == ["3", "8", "2"])
    time = rows.rows[at][0]
    gone = [[time, "3", code, "2"] for code in ("7", "8")]
    rows.rows = [row for row in rows.rows if row not in gone]
    said = read(rows)
    lost = "changes whose rows are missing; the judging of the cabinet begins again there"
    assert f"cabinet 3: {lost}: 1 (the first: phase 2 at" in said
    assert (tmp_path / "out.2").exists() and not (tmp_path / "out.3").exists()
    assert shown(tmp_path / "out.2", 3) and not shown(tmp_path / "out.2", 1)


def test_rows_a_tick_apart_are_reported(rows, read, good, tmp_path):
    """One row of a change is a tick late. The change counts at the row that begins a colour."""
    rng, count = random.Random(3), 0
    for place, row in enumerate(rows.rows):
        if row[2] in ("7", "9") and row[1] == "1" and rng.random() < 0.5 and count < 5:
            begins = [row[0], "1", "10", row[3]]
            if row[2] == "9" and begins not in rows.rows:
                continue
            rows.moved(place, rng.choice((-1, 1)))
            count += 1
    rows.rows.sort(key=lambda row: row[0])
    said = read(rows)
    assert f"changes whose two rows are a tick or two apart: {count}" in said
    assert all_shown(tmp_path) == good


def test_duplicate_rows_are_reported_and_dropped(rows, read, good, tmp_path):
    twice = [place for place, row in enumerate(rows.rows) if row[1] == "4" and row[2] in ("1", "8")][:7]
    for place in reversed(twice):
        rows.rows.insert(place, list(rows.rows[place]))
    assert "cabinet 4: duplicate rows, dropped: 7" in read(rows) and all_shown(tmp_path) == good


def test_rows_out_of_order_are_put_in_order(rows, read, good, tmp_path):
    """A row is moved three rows of its device down."""
    own = [place for place, row in enumerate(rows.rows) if row[1] == "1"]
    for at in (40, 80, 120):
        places = own[at : at + 8]
        its = [rows.rows[place] for place in places]
        if its[0][0] != its[-1][0]:
            its = its[1:] + its[:1]
        for place, it in zip(places, its):
            rows.rows[place] = it
    said = read(rows)
    assert "cabinet 1: " in said and "rows out of order, put in order" in said and all_shown(tmp_path) == good


def test_rows_that_are_in_no_order_at_all_are_put_in_order(rows, read, good, tmp_path):
    random.Random(5).shuffle(rows.rows)
    said = read(rows)
    assert said.count("rows out of order, put in order") == 4 and "set back" not in said
    assert all_shown(tmp_path) == good


def test_a_clock_that_is_set_back_is_reported(rows, read, good, tmp_path):
    own = [place for place, row in enumerate(rows.rows) if row[1] == "2"]
    for place in own[len(own) // 2 :]:
        rows.moved(place, -600)
    said = read(rows)
    assert "the clock was set back; the judging of the cabinet begins again there: 1 (" in said
    assert shown(tmp_path / "out.2", 2) and not shown(tmp_path / "out.2", 3)


def test_a_hole_is_reported(rows, read, good, tmp_path):
    gone = ("07:08", "07:09", "07:10", "07:11", "07:12")
    rows.rows = [row for row in rows.rows if row[1] != "1" or row[0][11:16] not in gone]
    said = read(rows, "--hole", "200")
    holes = "cabinet 1: holes, without any row; the judging of the cabinet begins again after each"
    assert f"{holes}: 1 (the first: " in said
    before, after = shown(tmp_path / "out", 1), shown(tmp_path / "out.2", 1)
    assert before[-1][0] < after[0][0] - 2000 and set(before[1:]) | set(after[1:]) <= set(good[1])


def test_two_devices_that_are_swapped_are_reported(rows, read, good, tmp_path):
    """The offsets of the plan are 0, 20, 40 and 60 s: so the log of another cabinet shows another offset."""
    for row in rows.rows:
        row[1] = {"1": "2", "2": "1"}.get(row[1], row[1])
    said = read(rows)
    cells = [it.get("cells", []) for it in json.loads(SHEET.read_text())["cabinets"]]
    assert ["pattern", 1, 3, 20] in cells[1] and not any(cell[:3] == ["pattern", 1, 3] for cell in cells[0])
    differ = "patterns whose cycle, offset or splits differ from the plan's"
    assert f"cabinet 1: {differ}: 1 (the first: offset of pattern 1" in said
    assert "20 s, the plan has 0 s" in said and "0 s, the plan has 20 s" in said and "cabinet 3: pat" not in said
