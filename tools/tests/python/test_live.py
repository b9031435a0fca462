"""Live sessions: typed answers, the record that check takes, and what is left of sessions that end badly."""

import asyncio
import gc
import signal
import threading
import time

import arterial
import pytest

from .conftest import ONE, OPENING

TWO = ONE | {"cabinets": [{}, {"pattern": 1}]}


def test_a_session_gives_the_frames_of_the_live_page():
    """docs/LIVE.md, "A session": a car on phase 4 for one tick."""
    with arterial.live(ONE | {"rounds": 3, "ticks": 100}) as street:
        assert [(it.tick, it.vehicles[:8]) for it in street.tick(70).frames] == [(60, "RGRRRGRR")]
        street.vehicle(1, 4)
        assert street.tick(1).frames == ()
        street.vehicle(1, 4, False)
        assert street.tick(29).frames == () and street.time_s == 10.0 and street.left == 200
        assert [it.tick for it in street.tick(100).frames] == [160, 200]
        step = street.tick(100)
        assert [it.tick for it in step.frames] == [215] and step.is_over and street.is_over
    assert arterial.check(street.trace)
    assert b"J 1 4*70 0*1 4*1 0*1 4*29\n" in street.trace.text


def test_ticks_may_go_over_the_ends_of_rounds():
    with arterial.live(ONE) as street:
        step = street.tick(215)
        assert step.time_s == 21.5 and [it.tick for it in step.frames] == [60]
        street.end()
    assert street.trace.seconds == 22.0 and arterial.check(street.trace)


def test_objects_are_read_by_the_names_of_the_mib():
    """std8: phase 2 has a minimum green of 10 s and a yellow of 4.0 s; free operation is 254 (NTCIP 1202)."""
    with arterial.live(ONE) as street:
        assert street.get(1, "phaseMinimumGreen.2") == 10
        assert street.get(1, "phaseYellowChange.2", "1.3.6.1.4.1.1206.4.2.1.1.2.1.4.2") == [40, 10]
        assert street.get(1, "phaseConcurrency.2") == bytes([5, 6])
        street.tick(60)
        assert street.get(1, "coordPatternStatus") == 254
        street.command(1, 255)
        street.tick(300)
        assert street.shown[1].mode == "X"
    assert arterial.check(street.trace)


def test_a_download_is_in_force_or_names_its_rule():
    """Rule 10: a yellow of 3.0 s or more. 33 cells are two parts."""
    with arterial.live(ONE) as street:
        assert street.load(1, [["phase", 2, 8, 43]]) == arterial.Outcome(True, 1)
        refused = street.load(1, [("phase", 2, 8, 29)])
        assert not refused.accepted and (refused.rule, refused.row) == (10, 2) and "3.0 s" in refused.words
        cells = [["split", 2, phase, 3, 20] for phase in range(1, 17)] * 2 + [["phase", 2, 4, 12]]
        assert street.load(1, cells).accepted
        street.tick(1)
        assert street.get(1, "phaseYellowChange.2", "phaseMinimumGreen.2") == [43, 12]
    assert street.trace.downloads().accepted.tolist() == [True, False, True]
    assert arterial.check(street.trace)


def test_inputs_and_priority_are_in_the_record():
    with arterial.live(TWO) as street:
        street.pedestrian(1, 4)
        street.preempt(2, 1, True)
        street.tick(5)
        street.preempt(2, 1, False)
        street.priority(2, 2, 3.0, 5.5, number=3)
        street.tick(5)
        street.cancel(2, 3)
        street.tick(10)
    codes = street.trace.events()
    assert {90, 102, 104, 112, 115} <= set(codes.event)
    assert codes[codes.event == 112][["cabinet", "parameter"]].values.tolist() == [[2, 3]]
    assert arterial.check(street.trace)


def test_what_the_scenario_holds_happens_in_its_rounds():
    load = {"round": 2, "cabinet": 1, "cells": [["phase", 2, 8, 43]]}
    with arterial.live(ONE | {"loads": [load], "rounds": 9}) as street:
        steps = [street.tick(10) for _ in range(9)]
    assert [it.version for step in steps for it in step.downloads] == [1]
    assert any("load 1 done" == it.words for step in steps for it in step.notes)


REFUSED = [
    lambda it: it.vehicle(1, 17), lambda it: it.vehicle(1, 0), lambda it: it.vehicle(1, 2, 1),
    lambda it: it.pedestrian(1, "2"), lambda it: it.preempt(1, 9), lambda it: it.tick(0), lambda it: it.tick(601),
    lambda it: it.tick(1.5), lambda it: it.get(1), lambda it: it.get(1, "phaseGreen.2"), lambda it: it.get(1, ""),
    lambda it: it.get(1, "phaseMinimumGreen.99"), lambda it: it.set(1, "phaseMinimumGreen.2", 5),
    lambda it: it.set(1, "cabinetClock", "7:00"), lambda it: it.command(1, 256), lambda it: it.load(1, []),
    lambda it: it.load(1, [["phase", 99, 8, 40]]), lambda it: it.load(1, ["phase"]), lambda it: it.cancel(1, 11),
    lambda it: it.priority(1, 2, 5, 3), lambda it: it.priority(1, 2, -1, 3), lambda it: it.message(1, b"", "other"),
    lambda it: it.message(1, bytes(1473)),
]  # fmt: skip


def test_requests_that_arent_accepted_change_nothing_and_the_session_goes_on():
    with arterial.live(ONE) as street:
        for does in REFUSED:
            with pytest.raises(arterial.Refused) as fault:
                does(street)
            assert fault.value.words
        for does in (lambda: street.vehicle(2, 1), lambda: street.get(0, "coordPatternStatus")):
            with pytest.raises(arterial.NoCabinet):
                does()
        assert [it.tick for it in street.tick(600).frames] == [60]
    assert arterial.check(street.trace)


def test_a_session_isnt_used_after_its_end():
    with arterial.live(ONE) as street:
        street.tick(5)
        with pytest.raises(arterial.Error, match="hasn't ended"):
            street.trace
    for does in (street.tick, lambda: street.vehicle(1, 2), lambda: street.get(1, "coordPatternStatus")):
        with pytest.raises(arterial.Over, match="has ended"):
            does()
    street.end()
    assert street.trace.seconds == 1.0


def test_two_threads_dont_use_one_session_at_the_same_time(script):
    """The program answers the first thread only after the second one has been refused."""
    script(OPENING + "read line; read more\necho .\nread line\n")
    street, found = arterial.live(ONE), []
    first = threading.Thread(target=lambda: found.append(street._ask([b"veh 1 2 on"])))
    first.start()
    while not street._lock.locked():
        time.sleep(0.001)
    with pytest.raises(arterial.Busy, match="another thread"):
        street.vehicle(1, 2)
    street._session.written(b"\n")
    first.join(20)
    assert found == [[[]]]
    street._broken()


@pytest.mark.parametrize(("end", "kind", "words"), [
    ("echo 'out of memory' >&2; exit 6", arterial.ProgramDied, "out of memory"),
    ("exit 0", arterial.ProgramDied, "the program ended with status 0"),
    ("kill -9 $$", arterial.ProgramDied, "ended by signal 9"),
    ("sleep 60 & wait", arterial.Late, "was not done in 0.4 s"),
])  # fmt: skip
def test_a_program_that_dies_or_is_silent_ends_the_session(script, end, kind, words):
    script(f"{OPENING}read line\n{end}\n")
    with pytest.raises(kind, match=words):
        with arterial.live(ONE, seconds=0.4) as street:
            street.tick(5)
    with pytest.raises(arterial.Over):
        street.tick(1)
    with pytest.raises(arterial.Error, match="there is no record"):
        street.trace


def test_a_scenario_that_the_program_refuses_has_words():
    with pytest.raises(arterial.Refused) as fault:
        arterial.live(ONE | {"cabinets": [{"cells": [["phase", 4, 8, 29]]}]})
    assert (fault.value.rule, fault.value.row) == (10, 4) and len(fault.value.words) > 1
    for given in (ONE | {"ticks": "10"}, {}, [], 5, "{", ONE | {"cabinets": {}}):
        with pytest.raises(arterial.Refused):
            arterial.live(given)


def test_an_exception_in_the_block_ends_the_program_and_keeps_whole_rounds(script):
    with pytest.raises(ZeroDivisionError):
        with arterial.live(ONE, program=arterial.program().path) as street:
            street.tick(25)
            1 / 0
    assert street.trace.seconds == 2.0 and arterial.check(street.trace)


def test_a_session_that_is_interrupted_ends_and_keeps_whole_rounds(script):
    """The first round is answered, the second hangs when Ctrl-C comes."""
    script(OPENING + "read line; printf 'J 1 4*10\\nR 2\\n.\\n'\nread line; sleep 60 & wait\n")

    def interrupt(number, frame):
        raise KeyboardInterrupt

    before = signal.signal(signal.SIGALRM, interrupt)
    try:
        with pytest.raises(KeyboardInterrupt):
            with arterial.live(ONE) as street:
                street.tick(10)
                signal.setitimer(signal.ITIMER_REAL, 0.3)
                street.tick(10)
    finally:
        signal.signal(signal.SIGALRM, before)
    assert street.is_over and street.trace.seconds == 1.0


def test_a_session_that_is_forgotten_leaves_no_process(script):
    script(OPENING + "sleep 60 & wait")
    street = arterial.live(ONE)
    assert street.cabinets == 1
    del street
    gc.collect()


def test_requests_of_asyncio_are_answered_in_their_order():
    async def does():
        async with arterial.live_async(ONE) as street:
            answers = await asyncio.gather(street.tick(60), street.vehicle(1, 4), street.tick(155), street.left_now())
        return street, answers

    arterial.AsyncStreet.left_now = lambda it: it.get(1, "coordPatternStatus")
    try:
        street, (first, _, second, status) = asyncio.run(does())
    finally:
        del arterial.AsyncStreet.left_now
    assert [it.tick for it in first.frames] == [60] and [it.tick for it in second.frames] == [160, 200, 215]
    assert status == 254 and arterial.check(street.trace)


def test_a_task_that_is_cancelled_leaves_a_session_that_can_be_used():
    async def does():
        async with arterial.live_async(ONE) as street:
            task = asyncio.create_task(street.tick(60))
            await asyncio.sleep(0)
            task.cancel()
            with pytest.raises(asyncio.CancelledError):
                await task
            step = await street.tick(10)
        return street, step

    street, step = asyncio.run(does())
    assert step.time_s in (1.0, 7.0) and arterial.check(street.trace)


def test_a_session_of_asyncio_is_used_within_its_block():
    street = arterial.live_async(ONE)
    for does in (street.tick, lambda: street.trace, lambda: street.get(1, "coordPatternStatus")):
        with pytest.raises(arterial.Over, match="async with"):
            does()


def test_exceptions_of_asyncio_are_those_of_the_package(script):
    script(f"{OPENING}read line\nexit 6\n")

    async def does():
        async with arterial.live_async(ONE) as street:
            await street.tick(5)

    with pytest.raises(arterial.ProgramDied):
        asyncio.run(does())
