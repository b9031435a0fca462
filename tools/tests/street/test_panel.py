"""The panel in a real browser, and what pages may and may not ask of it."""

import asyncio
import json
import re
import sys
import time

import pytest
from streettools.cabinet.messages import GET, SET, message, reply_of
from streettools.shared.oids import BEGIN, ENTRIES, FINISH, ID, PART, SEQUENCE_DATA, TOTAL
from streettools.street.pace import Pace
from streettools.street.street import Street

from .conftest import CONTROL, SECONDS, VERSION
from .test_agents import get, written

aiohttp = pytest.importorskip("aiohttp")
from streettools.street.panel.panel import Panel  # noqa: E402
from streettools.street.panel.state import PanelState  # noqa: E402

TRAIN = {
    "version": 1,
    "rounds": 9,
    "ticks": 10,
    "cabinets": [{"cells": [["preempt", 1, 13, "0206"], ["preempt", 1, 10, 5]]}],
}
"""Preempt 1 dwells on phases 2 and 6 for 5 s at the least."""


@pytest.fixture
def browser():
    """A browser without a window; the test is skipped where there is none."""
    webdriver = pytest.importorskip("selenium.webdriver")
    from selenium.common.exceptions import WebDriverException
    from selenium.webdriver.chrome.service import Service

    options = webdriver.ChromeOptions()
    for word in (
        "--headless=new",
        "--no-sandbox",
        "--disable-gpu",
        "--disable-dev-shm-usage",
        "--window-size=1200,1400",
    ):
        options.add_argument(word)
    try:
        made = webdriver.Chrome(options=options, service=Service("/usr/bin/chromedriver"))
    except WebDriverException:
        pytest.skip("no chromium with its driver here")
    made.implicitly_wait(10)
    yield made
    made.quit()


@pytest.fixture
def panel(street, tmp_path):
    """Starts a street with a panel; returns it, and the panel's address."""

    def start(*words):
        running = street("--ports", 0, "--panel", 0, "--scenario", written(tmp_path, TRAIN), *words)
        return running, running.told(r"panel at (http://\S+)")[1]

    return start


def feed_of(address):
    """Returns the address of the pages' web socket, and the headers of a page of the panel."""
    base, token = address.split("?")
    return f"{base}feed?{token}", {"Origin": base.rstrip("/")}


def text_of(browser, name):
    """Returns all that an element of the page says, at one moment: the page may draw it anew behind that."""
    return browser.execute_script(
        "const it = document.getElementById(arguments[0]); return it ? it.innerText ?? it.textContent : ''", name
    )


def awaited(browser, name, wanted):
    """Waits until an element of the page says something, and returns all that it says."""
    until = time.monotonic() + SECONDS
    while time.monotonic() < until:
        text = text_of(browser, name)
        if re.search(wanted, text):
            return text
        time.sleep(0.1)
    raise AssertionError(f"{name} says {text!r}, not {wanted}")


def stood(browser, name):
    """Waits until an element of the page has said the same for a second, and returns it: what was on its way when a
    button was pressed may still come."""
    until, text = time.monotonic() + SECONDS, text_of(browser, name)
    while time.monotonic() < until:
        before = text
        time.sleep(1)
        text = text_of(browser, name)
        if text == before:
            return text
    raise AssertionError(f"{name} says {text!r} after {before!r}")


def test_a_held_detector_brings_a_green(panel, browser):
    _, address = panel("--speed", 20)
    browser.get(f"{address}#1")
    awaited(browser, "box-2", "green")
    browser.find_element("id", "pause").click()
    awaited(browser, "pause", "Go on")
    browser.find_element("id", "hold-4").click()
    awaited(browser, "calls-4", "vehicle")
    browser.find_element("id", "pause").click()
    awaited(browser, "box-4", "green")
    assert browser.find_element("id", "hold-4").get_attribute("aria-pressed") == "true"
    browser.find_element("id", "hold-4").click()
    awaited(browser, "box-2", "green")


def test_a_held_preempt_is_shown_in_the_rings(panel, browser):
    _, address = panel("--speed", 20)
    browser.get(f"{address}#1")
    browser.find_element("id", "hold-4").click()
    awaited(browser, "box-4", "green")
    browser.find_element("id", "preempt-1").click()
    awaited(browser, "facts", "preempt 1, dwell")
    awaited(browser, "box-2", "green")
    assert "red" in text_of(browser, "box-4")
    browser.find_element("id", "preempt-1").click()
    awaited(browser, "facts", "free")


SPLITS, SEQUENCE = (*ENTRIES["split"], 3, 1), SEQUENCE_DATA


def download(running, number, *cells):
    """Brings cells to the only cabinet as a download of management software, which is put in force."""
    of_it = (ID, number)
    for pairs in ([(BEGIN, number)], [of_it, (PART, 1), *cells], [of_it, (TOTAL, 1)], [of_it, (FINISH, 1)]):
        assert reply_of(running.ask(message(SET, number, pairs))).status == 0


def places(browser):
    """Returns the phases of ring 1 as the page has them from left to right."""
    return browser.execute_script(
        "return [...document.querySelectorAll('#rings .ring:first-child .phase b')].map((it) => it.innerText)"
    )


def test_rings_are_drawn_anew_when_a_download_is_put_in_force(panel, browser):
    running, address = panel("--speed", 5)
    browser.get(f"{address}#1")
    awaited(browser, "box-2", "green")
    assert "split" not in text_of(browser, "rings")
    running.ask(message(SET, 1, [(CONTROL, 1)]))
    awaited(browser, "box-1", "split 15 s")
    download(running, 1, *(((*SPLITS, phase), time) for phase, time in ((1, 20), (4, 25), (5, 20), (8, 25))))
    awaited(browser, "box-1", "split 20 s")
    assert "split 25 s" in text_of(browser, "box-8")
    assert places(browser) == ["Phase 1", "Phase 2", "Phase 3", "Phase 4"]
    # lagging lefts on the main street: ring 1 is 2, 1, 3, 4 and ring 2 is 6, 5, 7, 8
    download(running, 2, ((*SEQUENCE, 1, 1), bytes([2, 1, 3, 4])), ((*SEQUENCE, 1, 2), bytes([6, 5, 7, 8])))
    awaited(browser, "rings", r"^Ring 1\s+Phase 2")
    assert places(browser) == ["Phase 2", "Phase 1", "Phase 3", "Phase 4"]
    browser.refresh()
    awaited(browser, "rings", r"^Ring 1\s+Phase 2")


def test_a_push_button_brings_a_walk_and_vehicles_come_by_chance(panel, browser):
    _, address = panel("--speed", 5)
    browser.get(f"{address}#1")
    awaited(browser, "box-2", "green")
    browser.find_element("id", "push-8").click()
    awaited(browser, "box-8", "walk")
    rate = browser.find_element("id", "rate-4")
    browser.execute_script("arguments[0].value = 3600; arguments[0].dispatchEvent(new Event('change'))", rate)
    awaited(browser, "calls-4", "vehicle")


def test_messages_of_management_software_are_told_by_their_names(panel, browser):
    running, address = panel()
    browser.get(address)
    awaited(browser, "cards", "Cabinet 1")
    running.ask(message(SET, 1, [(CONTROL, 255)]))
    running.ask(message(SET, 2, [(CONTROL, 256)]))
    awaited(browser, "messages", "badValue")
    browser.get(f"{address}#1")
    browser.refresh()
    text = " ".join(awaited(browser, "messages", "badValue").split())
    time.sleep(1)
    assert browser.find_element("id", "messages").text.count("badValue") == 1
    assert "Set systemPatternControl.0 = 255 systemPatternControl.0 = 255" in text
    assert "Set systemPatternControl.0 = 256 badValue at 1" in text


SHEET = """
title = "Elm Street"
[master]
clock = 07:00:00
[[intersection]]
name = "Elm & Oak"
travel = 22.5
rings = ["1 2 | 4", "6 | -"]
[intersection.phase]
4 = {name = "Oak northbound"}
[[intersection]]
name = "Elm & 1st"
travel = 18
[[intersection]]
name = "Elm & 2nd"
"""


def test_the_list_of_messages_is_filtered_by_kind_cabinet_and_text(panel, browser):
    from selenium.webdriver.common.keys import Keys

    running, address = panel("--speed", 0)
    running.ask(message(SET, 7, [(CONTROL, 99)]))
    for _ in range(3):
        running.ask(get(1, VERSION))
    browser.get(address)
    awaited(browser, "message-count", "4 of 4")
    chosen = browser.find_element("id", "message-kind")
    # all, Get, GetNext, GetBulk, Set, with a fault
    for keys, left in ((Keys.DOWN, 3), (3 * Keys.DOWN, 1), (Keys.DOWN, 1), (Keys.HOME, 4)):
        chosen.send_keys(keys)
        awaited(browser, "message-count", f"{left} of 4")
    text = browser.find_element("id", "message-text")
    text.send_keys("badvalue")
    awaited(browser, "message-count", "1 of 4")
    running.ask(message(SET, 8, [(CONTROL, 99)]))
    awaited(browser, "message-count", "2 of 5")
    browser.find_element("id", "message-cabinet").send_keys(Keys.END)
    awaited(browser, "message-count", "2 of 5")


def test_a_street_of_a_sheet_has_its_names_enabled_phases_and_times(street, browser, tmp_path):
    """Phase 8 is entered by the sheet: it is named as what it is. Of the standard table 9 to 16 aren't enabled. The
    first intersection is drawn at the foot."""
    (tmp_path / "elm.toml").write_text(SHEET)
    running = street("--ports", 0, "--panel", 0, "--scenario", tmp_path / "elm.toml", "--speed", 5)
    browser.get(running.told(r"panel at (http://\S+)")[1])
    assert "Elm & Oak (cabinet 1)" in awaited(browser, "cards", "Elm & Oak")
    awaited(browser, "time", r"^07:0\d:")
    values = "return [...document.querySelectorAll('#travel label')].map((it) => [it.innerText, it.lastChild.value])"
    links = [(name.strip(), value) for name, value in browser.execute_script(values)]
    assert links == [("Elm & Oak to Elm & 1st (s)", "22.5"), ("Elm & 1st to Elm & 2nd (s)", "18")]
    browser.find_element("css selector", "#diagram text.row")
    rows = "return [...document.querySelectorAll('#diagram text.row')]"
    told = browser.execute_script(f"{rows}.map((it) => [it.textContent, it.getAttribute('y')])")
    heights = {name: float(y) for name, y in told}
    assert heights["Elm & Oak"] > heights["Elm & 1st"] > heights["Elm & 2nd"]
    browser.execute_script("location.hash = '#1'")
    text = awaited(browser, "phases", "Oak northbound")
    assert awaited(browser, "cabinet-title", "cabinet 1") == "Elm & Oak (cabinet 1)"
    listed = "return [...document.querySelectorAll('#phases tbody th')].map((it) => it.innerText)"
    placeholder = "8 placeholder: only the rings need it"
    assert browser.execute_script(listed) == ["1", "2", "4 Oak northbound", "6", placeholder]
    assert "Oak northbound" in text_of(browser, "box-4"), text


def test_time_is_paused_and_stepped(panel, browser):
    running, address = panel("--speed", 5)
    browser.get(address)
    awaited(browser, "time", r"00:(?!00:00)")
    browser.find_element("id", "pause").click()
    awaited(browser, "pause", "Go on")
    stands = stood(browser, "time")
    browser.find_element("id", "second").click()
    seconds = float(stands[-4:]) + 60 * int(stands[3:5])
    awaited(browser, "time", re.escape(f"{(seconds + 1) % 60:04.1f}") + "$")


def test_a_page_says_that_the_street_has_ended(panel, browser):
    running, address = panel()
    browser.get(address)
    awaited(browser, "cards", "Cabinet 1")
    assert running.end() == 0
    awaited(browser, "ending", "The street has ended")


def test_a_page_without_pointer_or_colour_has_names_for_all(panel, browser):
    _, address = panel()
    browser.get(f"{address}#1")
    awaited(browser, "box-1", "red")
    unnamed = browser.execute_script(
        "return [...document.querySelectorAll('button, input, select')].filter((it) => "
        "!(it.textContent.trim() || it.getAttribute('aria-label') || (it.labels && it.labels.length))).length"
    )
    assert unnamed == 0
    assert browser.execute_script(
        "return [...document.querySelectorAll('.lamp')].every("
        "(it) => it.textContent.trim() && it.getAttribute('aria-label'))"
    )


WRONG = [
    "", "[]", "{", "null", '{"do":"input"}', '{"do":"input","kind":[]}', '{"do":"step","ticks":0}',
    '{"do":"step","ticks":true}',
    '{"do":"speed","speed":-1}', '{"do":"speed","speed":1e9}', "[" * 500, "x" * 3000,
    '{"do":"input","kind":"veh","cabinet":2,"place":4,"on":true}', '{"do":"rate","cabinet":1,"phase":4,"rate":3601}',
    '{"do":"input","kind":"tick 1\\nveh","cabinet":1,"place":4,"on":true}', '{"do":"hang","cabinet":2,"on":true}',
    '{"do":"hang","cabinet":1,"on":1}', '{"do":"line"}', '{"do":"line","on":null}',
]  # fmt: skip


def test_two_hundred_pages_that_ask_for_nonsense_and_go_away_leave_it_answering(panel):
    running, address = panel()

    async def crowd():
        async with aiohttp.ClientSession(connector=aiohttp.TCPConnector(limit=0)) as session:
            feed, headers = feed_of(address)
            made = [await session.ws_connect(feed, headers=headers) for _ in range(200)]
            for number, socket in enumerate(made):
                await socket.send_str(WRONG[number % len(WRONG)])
            for socket in made[::2]:
                await socket.close()
            return await made[1].receive_json()

    assert asyncio.run(crowd())["cabinets"]["1"][1] == "R" * 16
    assert reply_of(running.ask(get(5, VERSION))).number == 5
    assert running.end() == 0


def test_a_cabinet_hangs_on_command_and_the_bad_line_is_switched(panel, tmp_path):
    """The line loses all; it is switched off, the cabinet hangs and answers again."""
    (tmp_path / "bad.toml").write_text("[[line]]\nloss = 100\n")
    running, address = panel("--line", tmp_path / "bad.toml", "--speed", 0)

    def answers(number):
        running.socket.settimeout(0.3)
        try:
            return reply_of(running.ask(get(number, VERSION))).number == number
        except TimeoutError:
            return False

    async def switched():
        found = [await asyncio.to_thread(answers, 1)]
        async with aiohttp.ClientSession() as session:
            feed, headers = feed_of(address)
            async with session.ws_connect(feed, headers=headers) as page:
                for number, (told, due) in enumerate(SWITCHES, 2):
                    await page.send_json(told)
                    while (await page.receive_json()).get("line") != {"rules": 1, **due}:
                        pass
                    found.append(await asyncio.to_thread(answers, number))
        return found

    assert asyncio.run(asyncio.wait_for(switched(), SECONDS)) == [False, True, False, True, False]


SWITCHES = [
    ({"do": "line", "on": False}, {"on": False, "hanging": []}),
    ({"do": "hang", "cabinet": 1, "on": True}, {"on": False, "hanging": [1]}),
    ({"do": "hang", "cabinet": 1, "on": False}, {"on": False, "hanging": []}),
    ({"do": "line", "on": True}, {"on": True, "hanging": []}),
]


def test_what_pages_ask_is_recorded(panel, tmp_path):
    running, address = panel("--record", tmp_path / "kept.trace", "--speed", 10)

    async def held():
        async with aiohttp.ClientSession() as session:
            feed, headers = feed_of(address)
            async with session.ws_connect(feed, headers=headers) as socket:
                await socket.send_json({"do": "input", "kind": "veh", "cabinet": 1, "place": 4, "on": True})
                await socket.send_json({"do": "input", "kind": "ped", "cabinet": 1, "place": 8})
                while not (await socket.receive_json()).get("inputs"):
                    pass

    asyncio.run(held())
    assert running.end() == 0
    scenario = json.loads((tmp_path / "kept.trace").read_bytes().split(b"\n", 1)[0][2:])
    told = [{name: it for name, it in item.items() if name != "round"} for item in scenario["inputs"]]
    assert told == [{"cabinet": 1, "veh": 4, "on": True}, {"cabinet": 1, "ped": 8}]


class Calls:
    """Counts the functions that are called in a block, which doesn't depend on the pace of the machine."""

    def __enter__(self):
        self.count = 0
        sys.setprofile(self.called)
        return self

    def called(self, frame, event, arg):
        self.count += event in ("call", "c_call")

    def __exit__(self, *fault):
        sys.setprofile(None)


def steps_of(work):
    """Returns the number of functions that each step of some work calls; between two steps the street does its work."""
    found = []
    while True:
        with Calls() as calls:
            try:
                work.send(None)
            except StopIteration:
                return found
        found.append(calls.count)


LONG = message(GET, 1, [((1, 3, 6, 1, *[1] * 1396), None)])
"""A Get with a name of 1,400 arcs."""


@pytest.fixture
def busy():
    """The panel of 64 cabinets that had 20 minutes of greens and 260 long messages, none of them in words yet."""
    state = PanelState()
    panel = Panel(state)
    scenario = {"version": 1, "rounds": 1, "ticks": 10, "cabinets": [{"pattern": 1}] * 64}
    panel.street = Street("none", scenario, Pace(1), [])
    state.began(panel.street.scenario)
    with Calls() as calls:
        for _ in range(260):
            state.exchanged(1, LONG, None)
    for tick in range(0, 12_000, 100):
        for number in range(1, 65):
            lamps = "".join("G" if (tick // 100 + place) % 4 else "R" for place in range(16))
            state.take(f"F {number} {tick} {lamps} DDDDDDDDDDDDDDDD C 1 1 0")
    state.ticks = 12_000
    return panel, calls.count / 260


def test_a_message_is_not_put_into_words_while_it_is_answered(busy, monkeypatch):
    """That a page shows a message costs its answer a dozen calls, however long it is; the 200 last ones are kept."""
    panel, calls = busy
    assert calls < 20
    monkeypatch.setattr("streettools.street.panel.state.message_row", lambda *_: pytest.fail("put into words"))
    panel.shown.heard(b"frame 1 priority " + LONG.hex().encode(), [b"A 1 261 -"])
    assert len(panel.shown.asked) == 200 and not panel.shown.messages


def test_each_step_of_the_work_for_pages_is_short(busy):
    """A step puts one message into words, whose 1,400 arcs are read once, or has the greens of one cabinet."""
    panel, _ = busy
    words, greens = steps_of(panel.shown.put_in_words()), steps_of(panel.shown.greens())
    assert len(words) == 200 and max(words) < 2000
    assert len(greens) == 64 and max(greens) < 100
    assert len(panel.shown.messages) == 200 and not panel.shown.asked


def test_a_page_that_opens_puts_no_message_into_words(busy, monkeypatch):
    """Messages are put into words once, not for each page; a long one is clipped, so a page's first text is short."""
    panel, _ = busy
    assert len(steps_of(panel.shown.put_in_words())) == 200
    monkeypatch.setattr("streettools.street.panel.state.message_row", lambda *_: pytest.fail("put into words"))
    with Calls() as calls:
        text = json.dumps(panel.head() | panel.state())
    assert calls.count < 500 and len(text) < 200_000
