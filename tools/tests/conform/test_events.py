"""What a device itself reports of its display is judged to the tick, also if polls are far apart."""

import stat

import pytest
from streettools.conform import events
from streettools.shared.fault import Fault

from .conftest import MODEL, MUTANT, Device, conform, reported

TEE = """#!/bin/sh
ARTERIAL_MUTANT="{mutant}" "{program}" "$@" | tee "{log}"
"""
"""A program that answers as another one, and keeps what it answers: the log of a device."""
LOG = """
class Log:
    def __init__(self):
        self.lines = open({path!r})

    def changes(self):
        for line in self.lines:
            if line.startswith("F 1 ") and line.endswith("\\n"):
                _, _, tick, colours, signals, *_ = line.split(" ")
                yield 10 * int(tick), colours, signals

    def close(self):
        self.lines.close()
"""
SPEED = 4


@pytest.mark.parametrize("mutant, unsafe", [(None, []), ("yellow-short", [2, 4])])
def test_a_short_yellow_is_known_to_the_tick_by_the_device_s_own_log(mutant, unsafe, tmp_path):
    """Yellow lasts 3.8 s in place of 4.0 s; the device runs by itself, and its log has each change."""
    log, program, source = tmp_path / "log", tmp_path / "program", tmp_path / "log.py"
    log.touch()
    program.write_text(TEE.format(program=MUTANT if mutant else MODEL, log=log, mutant=mutant or ""))
    program.chmod(program.stat().st_mode | stat.S_IXUSR)
    source.write_text(LOG.format(path=str(log)))
    with Device("--as", "ntcip1202", "--speed", SPEED, "--ports", 0, program=program) as device:
        words = ("--only", "yellow-and-red-clearance", "--events", f"{source}:Log")
        report, status = reported(device.where, *words, folder=tmp_path, speed=SPEED)
    (it,) = report["tests"]
    said = [line.split(" at ")[0] for line in it["unsafe"]]
    assert [f"phase {phase} yellow lasted 3.8 s; the plan has 4.0 s" for phase in unsafe] == sorted(
        line for line in said if line.split(" ")[1] in "24"
    )
    assert status == (2 if mutant else 0)


class Given:
    """Events that return what they were given."""

    def __init__(self, changes):
        self.given = changes

    def changes(self):
        return self.given

    def close(self):
        pass


GOOD = (100, "G" * 8, "D" * 8)


@pytest.mark.parametrize(
    "wrong",
    [None, 5, (1, "G" * 8), (-1, "G" * 8, "D" * 8), (True, "G" * 8, "D" * 8), (1, "X" * 8, "D" * 8),
     (1, "G" * 9, "D" * 9), (1, "G" * 8, "D" * 16), (1, b"G" * 8, "D" * 8), (99, "G" * 8, "D" * 8)],
)  # fmt: skip
def test_what_is_not_a_change_is_refused(wrong):
    """The last one is earlier than the change before it."""
    with pytest.raises(Fault, match="is not a change that can follow"):
        events.reported(Given([GOOD, wrong]))


def test_changes_are_dated_from_the_start_and_earlier_ones_are_left_out():
    """Of two changes at one tick the later one counts."""
    later = [(129, "Y" * 8, "D" * 8), (125, "R" * 8, "D" * 8)][::-1]
    found = events.samples(Given([GOOD, *later, (230, "R" * 8, "W" * 8)]), 120)
    assert [(it.span.first, it.display.vehicles[0]) for it in found] == [(0, "Y"), (11, "R")]


def test_events_that_fail_or_are_none_are_one_line(tmp_path):
    path = tmp_path / "log.py"
    path.write_text("class Log:\n    def changes(self): raise ValueError('no log')\n    def close(self): pass\n")
    with pytest.raises(Fault, match="--events: ValueError: no log"):
        events.reported(events.opened(f"{path}:Log"))
    assert conform("127.0.0.1:1", "--events", f"{path}:Nothing").stderr.count("\n") == 1
    assert conform("127.0.0.1:1", "--events", "log").stderr.count("\n") == 1
