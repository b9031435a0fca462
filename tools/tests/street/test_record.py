"""What a street records is a trace, which has all that came but reads; and it can happen again."""

import asyncio
import json
import subprocess
import time
import tracemalloc

import pytest
from model.promises.judging import broken_promises
from streettools.cabinet.messages import SET, message, reply_of
from streettools.shared import session_record
from streettools.shared.snmp import RESPONSE, message_of, octets_of
from streettools.street.known import Clocks
from streettools.street.pace import Pace
from streettools.street.record import Recorder, last_of, read_requests
from streettools.street.street import Street, rounds_for

from .conftest import CLOCK, CONTROL, COUNTER, PROGRAM, SECONDS
from .test_agents import get, value_in


def checked(trace):
    """Returns what the program says of a trace: status 0 and nothing where it is one."""
    ran = subprocess.run([PROGRAM, "check"], input=trace.read_bytes(), capture_output=True)
    return ran.returncode, ran.stderr


def set_clock(number, clock):
    """Returns a Set of the clock."""
    return message(SET, number, [(CLOCK, clock)])


def recorded(street, file, *words):
    """Lets a street live for some messages, and ends it."""
    running = street("--ports", 0, "--speed", "step", "--ticks-per-message", 7, "--record", file, *words)
    for number in range(1, 30):
        running.ask(set_clock(number, 1000 * number) if number % 3 == 0 else get(number, COUNTER))
    assert running.end() == 0
    return file.read_bytes()


def test_a_record_is_a_trace_with_every_set_and_no_read(street, tmp_path):
    trace = recorded(street, tmp_path / "session.trace")
    assert checked(tmp_path / "session.trace") == (0, b"")
    assert broken_promises(trace) == []
    files = (tmp_path / "session.trace", tmp_path / "session.dialogue")
    assert [it.stat().st_mode & 0o777 for it in files] == [0o600, 0o600]
    scenario = json.loads(trace.split(b"\n", 1)[0][2:])
    assert [item["hex"] for item in scenario["frames"]] == [set_clock(n, 1000 * n).hex() for n in range(3, 30, 3)]
    assert trace.count(b"\nA ") == 9


def test_the_lines_of_a_long_record_are_not_in_memory(tmp_path):
    """30,000 rounds of a second have lines of more than 1 MiB; they stay in a file, and the trace has them all."""
    recorder = Recorder(tmp_path / "long.trace")
    recorder.began({"version": 1, "rounds": 86_400, "ticks": 10, "cabinets": [{}]})
    recorder.heard(None, [b"R 1"])
    tracemalloc.start()
    for number in range(2, 30_002):
        recorder.heard(b"tick 10", [b"F 1 %d %b %b F 0 0 0" % (10 * number, b"R" * 16, b"D" * 16), b"J 1 4*10",
                                    b"R %d" % number])  # fmt: skip
    held = tracemalloc.get_traced_memory()[0]
    tracemalloc.stop()
    assert held < 1_500_000 < recorder.record.lines.size
    recorder.ended(None)
    lines = (tmp_path / "long.trace").read_bytes().splitlines()
    assert (len(lines), lines[1], lines[-2:]) == (1 + 3 * 30_000 + 1, b"R 1", [lines[-2], b"Z 30000"])
    assert sorted(it.name for it in tmp_path.iterdir()) == ["long.dialogue", "long.trace"]


def test_a_record_that_happens_again_gives_the_same_cabinet(street, tmp_path):
    recorded(street, tmp_path / "session.trace")
    running = street("--ports", 0, "--speed", "step", "--ticks-per-message", 0, "--resume", tmp_path / "session.trace")
    assert running.told(r"(\d+) ticks have happened again")[1] == str(7 * 29)
    # the clock was last set behind 7 * 26 ticks to 27,000; 21 ticks went by since
    assert value_in(running.ask(get(1, CLOCK))) == 27_000 + 21
    assert running.end() == 0


@pytest.mark.parametrize("is_named", [True, False])
def test_a_record_is_resumed_into_itself(street, tmp_path, is_named):
    first = recorded(street, tmp_path / "session.trace")
    named = [tmp_path / "session.trace"] if is_named else []
    words = ("--ports", 0, "--speed", "step", "--ticks-per-message", 7)
    running = street(*words, "--record", tmp_path / "session.trace", "--resume", *named)
    running.told("ticks have happened again")
    running.ask(set_clock(1, 5))
    assert running.end() == 0
    second = (tmp_path / "session.trace").read_bytes()
    assert checked(tmp_path / "session.trace") == (0, b"")
    lines = first.split(b"\n")[1:]
    # all rounds but the last, which was cut short by the end of the first session
    assert second.split(b"\n")[1 : len(lines) - 4] == lines[: len(lines) - 5]
    assert second.count(b"\nA ") == first.count(b"\nA ") + 1


def test_a_record_happens_again_by_the_clock(street, tmp_path):
    recorded(street, tmp_path / "session.trace")
    begun = time.monotonic()
    running = street("--ports", 0, "--speed", 20, "--replay", tmp_path / "session.trace")
    while value_in(running.ask(get(1, CLOCK))) < 27_000:
        assert time.monotonic() < begun + 30
        time.sleep(0.1)
    # it is set so behind 26 times 7 ticks, 200 of which are a second here
    assert time.monotonic() - begun > 26 * 7 / 200


def test_the_requests_of_a_killed_street_are_there(street, tmp_path):
    running = street("--ports", 0, "--record", tmp_path / "session.trace", "--speed", 10)
    running.ask(message(SET, 1, [(CONTROL, 1)]))
    time.sleep(1)
    running.street.kill()
    running.ended()
    again = street("--ports", 0, "--speed", "step", "--ticks-per-message", 0, "--resume", tmp_path / "session.trace")
    assert int(again.told(r"(\d+) ticks have happened again")[1]) >= 20
    assert value_in(again.ask(get(1, CONTROL))) == 1


def test_a_session_ends_before_its_record_passes_a_limit(tmp_path):
    scenario = {"version": 1, "rounds": 9, "ticks": 1, "cabinets": [{}]}
    recorder = Recorder(tmp_path / "session.trace")
    recorder.began(scenario)
    recorder.heard(None, [b"F 1 0 RRRRRRRRRRRRRRRR DDDDDDDDDDDDDDDD S 0 0 0", b"R 1"])
    for _ in range(899_999):
        recorder.record.added["inputs"].append({})
    assert not recorder.is_full()
    recorder.record.added["inputs"].append({})
    assert recorder.is_full()
    recorder.requests.close()


@pytest.mark.parametrize("name, count", [("frames", 90_000), ("added_size", 15_100_000), ("size", 60_400_000)])
def test_each_limit_of_scenarios_and_traces_is_one(tmp_path, name, count):
    recorder = Recorder(tmp_path / "session.trace")
    recorder.began({"version": 1, "rounds": 9, "ticks": 1, "cabinets": [{}]})
    if name == "frames":
        recorder.record.added[name] = [{}] * count
    elif name == "size":
        recorder.record.lines.size = count
    else:
        recorder.record.added_size = count
    assert recorder.is_full()
    recorder.requests.close()


def test_a_street_lives_as_long_as_a_scenario_may(tmp_path):
    assert rounds_for({"ticks": 10, "cabinets": [{}] * 64}) == 86_400
    assert rounds_for({"ticks": 600, "cabinets": [{}] * 64}) == 1440
    assert rounds_for({"ticks": 1, "cabinets": [{}]}) == 86_400


async def lived(street):
    """Lets a street live until it has begun anew, and ends it."""
    await street.open()
    living = asyncio.create_task(street.live())
    until = time.monotonic() + SECONDS
    while street.renewals == 0 and time.monotonic() < until:
        await asyncio.sleep(0.1)
    street.end()
    await living
    await street.close()


def street_here(pace, hearers):
    """Returns a street of one cabinet in rounds of five ticks."""
    return Street(str(PROGRAM), {"version": 1, "rounds": 1, "ticks": 5, "cabinets": [{}]}, Pace(pace), hearers)


def test_a_full_record_is_followed_by_another(tmp_path, monkeypatch):
    monkeypatch.setattr(session_record, "FULL", 6e-6)
    made = street_here(50, [Recorder(tmp_path / "session.trace")])
    asyncio.run(lived(made))
    assert made.renewals >= 1
    names = ["session.trace", *(f"session.{part}.trace" for part in range(2, made.renewals + 2))]
    assert [checked(tmp_path / name) for name in names] == [(0, b"")] * len(names)
    # six millionths of 67,108,864 bytes are 402, some ten rounds of a trace
    assert all((tmp_path / name).stat().st_size > 402 for name in names[:-1])


def test_behind_the_last_round_a_new_session_begins(tmp_path):
    made = street_here(50, [Recorder(tmp_path / "session.trace")])
    made.scenario["rounds"] = 4
    asyncio.run(lived(made))
    assert made.renewals >= 1
    assert (tmp_path / "session.trace").read_bytes().endswith(b"\nZ 4\n")
    assert checked(tmp_path / "session.trace") == (0, b"")


def test_a_record_of_several_sessions_is_resumed_from_the_last(street, tmp_path):
    """Sessions of 360 ticks. Pattern 1 is commanded and the date is set in the first; the second and the third keep
    both, and so does a street that resumes the last."""
    file, third = tmp_path / "session.trace", tmp_path / "session.3.dialogue"
    words = ("--ports", 0, "--record", file, "--session", 0.01)
    running = street(*words, "--speed", 400)
    # the number names 1 January 2000, day 10957 since 1970
    assert reply_of(running.ask(message(SET, -1 - 10_957, [(CLOCK, 1000), (CONTROL, 1)]))).status == 0
    until = time.monotonic() + SECONDS
    while not third.is_file() and time.monotonic() < until:
        running.ask(get(1, CLOCK))
    assert running.end() == 0
    kept = file.read_bytes()
    last = last_of(file)
    again = street("--ports", 0, "--speed", "step", "--ticks-per-message", 0, "--record", file, "--resume")
    again.told("ticks have happened again")
    assert value_in(again.ask(get(1, CONTROL))) == 1
    assert again.end() == 0
    assert file.read_bytes() == kept and last_of(file) == last != file
    for it in (file, last):
        assert checked(it) == (0, b"")
    clocks = Clocks(today=20_000)
    text, requests = read_requests(last)
    clocks.began(json.loads(text))
    clocks.heard(requests[0], [b"A 1 3 " + answered(requests[0])])
    assert clocks.expected(1) // 864_000 == 10_957


def answered(request):
    """Returns the digits of a reply without an error to a Set."""
    asked = message_of(bytes.fromhex(request.split(b" ")[3].decode()))
    return octets_of(asked._replace(kind=RESPONSE)).hex().encode()


def test_later_sessions_of_an_older_record_are_put_aside(tmp_path):
    file = tmp_path / "session.trace"
    for name in ("session.2.dialogue", "session.2.trace", "session.3.dialogue"):
        (tmp_path / name).touch()
    recorder = Recorder(file)
    recorder.began({"version": 1, "rounds": 9, "ticks": 1, "cabinets": [{}]})
    recorder.requests.close()
    assert sorted(it.name for it in tmp_path.iterdir()) == [
        "session.2.dialogue~", "session.2.trace~", "session.3.dialogue~", "session.dialogue",
    ]  # fmt: skip
    assert last_of(file) == file
