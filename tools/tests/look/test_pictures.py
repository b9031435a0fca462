"""Pictures by what their SVG holds, and that each form is written."""

import pytest

from .conftest import PAIR, SMALL, STREET, VECTORS, run


def test_rings_of_a_car_on_the_side_street(drawn):
    found = drawn("rings", given=SMALL)
    for ring in (1, 2):
        counts = [
            found.groups[f"ring-{ring}-{name}"] for name in ("green", "yellow", "red-clearance", "walk", "flashing")
        ]
        assert counts == [3, 2, 2, 0, 0]
    assert found.groups["barriers"] == 2 and found.groups["mode-free"] == 1
    assert [found.texts[it] for it in ("2", "4", "6", "8", "free", "ring 1")] == [2, 1, 2, 1, 1, 1]


def test_rings_of_a_street_cabinet(drawn):
    found = drawn("rings", "--cabinet", "2", "--to", "240", STREET)
    assert found.groups["ring-1-green"] == 10 and found.groups["ring-2-yellow"] == 9
    assert found.groups["local-zeros"] == 3 and found.texts["0"] == 3 and found.groups["barriers"] == 5


def test_rings_show_preempts_walks_and_downloads(drawn):
    found = drawn("rings", "--from", "0", "--to", "110", VECTORS[1])
    assert [found.groups[f"ring-{ring}-{name}"] for ring in (1, 2) for name in ("walk", "flashing")] == [3, 1, 1, 1]
    assert found.groups["mode-preempt"] >= 1 and found.texts["preempt 2 input"] == 1
    found = drawn("rings", "--cabinet", "1", VECTORS[2])
    assert found.texts["download version 1"] == 1 and found.groups["mode-flash"] >= 1


def test_a_start_gives_the_axis_the_time_of_day(drawn):
    """42 s from 23:59:30 on pass midnight; marks stand at whole five seconds of the day, wherever the start is."""
    found = drawn("rings", "--start", "23:59:30", given=SMALL)
    assert [found.texts[it] for it in ("23:59:30", "23:59:55", "00:00:00", "00:00:10", "00:00:15")] == [1, 1, 1, 1, 0]
    assert found.texts["time of day (hours:minutes:seconds)"] == 1
    found = drawn("offset", "--start", "2026-11-27T06:00:02.5", given=SMALL)
    assert [found.texts[it] for it in ("06:00:02.5", "06:00:05", "06:00:40", "06:00:45")] == [0, 1, 1, 0]


def test_bands_through_a_street(drawn):
    found = drawn("coordination", "--from", "600", "--to", "960", "--travel", "20,20,20", STREET)
    assert sum(name.startswith("outbound-band") for name in found.groups if name) == 4
    assert found.texts["24.5 s"] == 3 and found.texts["no inbound band"] == 1
    assert [found.groups[f"cabinet-{number}-outbound-green"] for number in (1, 2, 3, 4)] == [4, 4, 5, 4]


def named(found, start):
    """Returns the ends of the names of groups that begin so, as numbers."""
    return sorted(int(name.removeprefix(start)) for name in found.groups if name and name.startswith(start))


@pytest.fixture
def bands(tmp_path):
    """Writes the two lines of `arterial band` to a file."""

    def done(*lines):
        file = tmp_path / "bands"
        file.write_text("".join(f"{line}\n" for line in lines))
        return file

    return done


def test_bands_of_a_plan_by_the_clock_of_the_street(drawn, bands):
    """The clocks show 840 at tick 0, so that time 0 of a cycle of 900 is at ticks 60, 960 and 1860, and time 100 a
    hundred later."""
    found = drawn(
        "coordination", "--to", "240", "--travel", "10", "--planned",
        bands("outbound 0 245 1 1", "inbound 100 45 2 1"), given=PAIR,
    )
    assert (
        named(found, "outbound-planned-") == [60, 960, 1860] and named(found, "inbound-planned-") == [160, 1060, 1960]
    )
    assert found.texts["outbound by the plan, 24.5 s"] == 1 and found.texts["inbound by the plan, 4.5 s"] == 1


def test_a_street_on_its_offsets_has_the_bands_of_its_plan(drawn, bands):
    words = ("coordination", "--from", "600", "--to", "900", "--travel", "20,20,20", STREET)
    found = drawn(*words, "--planned", bands("outbound 0 245 1 1", "inbound none"))
    assert named(found, "outbound-planned-") == named(found, "outbound-band-") == [5460, 6360, 7260, 8160]
    assert named(found, "inbound-planned-") == [] and found.texts["none inbound by the plan"] == 1


@pytest.mark.parametrize(
    "lines, words",
    [
        (["outbound 0 245 1 1"], "not the two lines that `arterial band` writes"),
        (["outbound 0 245 1 1", "inbound none", ""], "not the two lines that `arterial band` writes"),
        (["outbound 0 900 1 1", "inbound none"], "a band of 90 s from 0 s on doesn't fit a cycle of 90 s"),
    ],
)
def test_other_bands_are_refused(bands, tmp_path, lines, words):
    path = tmp_path / "picture.svg"
    ran = run("coordination", "--travel", "20,20,20", "--planned", bands(*lines), "-o", path, STREET)
    assert (ran.returncode, ran.stdout, path.exists()) == (2, "", False)
    assert ran.stderr.startswith("look: ") and ran.stderr.endswith(f"{words}\n")


def test_the_offset_of_the_fourth_cabinet(drawn):
    found = drawn("offset", "--cabinet", "4", STREET)
    points = [found.groups[name] for name in ("pickup-away", "pickup-met", "zero-away", "zero-met")]
    assert points == [1, 0, 5, 4]
    assert [found.groups[f"cycles-{name}"] for name in ("corrected", "plain", "due")] == [6, 3, 9]
    assert found.groups["disturbances"] == 0


@pytest.mark.parametrize("path", VECTORS)
@pytest.mark.parametrize("command", ["rings", "coordination", "offset"])
def test_each_picture_is_drawn(drawn, path, command):
    found = drawn(command, path)
    assert any(text.startswith("time since the start") for text in found.texts)


def test_each_form_is_written_and_the_same_twice(look, tmp_path):
    for name in ("one.svg", "two.svg", "one.png", "one.pdf"):
        look("rings", "-o", tmp_path / name, given=SMALL)
    assert (tmp_path / "one.svg").read_bytes() == (tmp_path / "two.svg").read_bytes()
    assert (
        (tmp_path / "one.png").read_bytes().startswith(b"\x89PNG")
        and (tmp_path / "one.pdf").read_bytes().startswith(b"%PDF")
    )


def test_the_committed_street_is_the_one_worked_out():
    from . import street

    assert STREET.read_text() == "\n".join(street.trace()) + "\n"
