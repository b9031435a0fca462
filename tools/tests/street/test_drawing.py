"""The panel's drawing of an intersection, its preempts, and its cards, in a real browser."""

import os
import time

import pytest

from streettools.street.panel.layout import street_facts
from streettools.street.panel.state import PanelState

from .conftest import SECONDS
from .test_agents import written
from .test_panel import SHEET, TRAIN, awaited, browser, download, panel, text_of  # noqa: F401

PANEL = r"panel at (http://\S+)"
"""Where the street says its panel is."""

PLACES = [
    (2, "", "EBT"), (5, "", "EBL"), (6, "", "WBT"), (1, "", "WBL"), (4, "", "NBT"), (7, "", "NBL"), (8, "", "SBT"),
    (3, "", "SBL"), (4, "Oak Ave southbound", "SBT"), (3, "3rd St northbound", "NBT"), (5, "Main St left", "EBL"),
    (2, "NBL", "NBL"), (9, "", None), (9, "Westbound left", "WBL"), (4, "Ferry Ln", "NBT"), (2, "Ebony Road", "EBT"),
]  # fmt: skip
"""Phases with names, and their movements: by the name where it says a direction, else by the usual numbering."""


def test_a_phase_is_drawn_where_its_name_says_or_the_usual_numbering(panel, browser):  # noqa: F811
    _, address = panel("--speed", 0)
    browser.get(f"{address}#1")
    awaited(browser, "box-2", "red")
    found = [browser.execute_script("return movementOf(arguments[0], arguments[1])", *it[:2]) for it in PLACES]
    assert found == [it[2] for it in PLACES]


def test_the_heads_have_the_lamps_letters_and_a_detector_is_held_by_a_click_or_a_key(panel, browser):  # noqa: F811
    """All eight phases of the standard table have a head; 2, 4, 6 and 8 have crosswalks, as they have walks."""
    from selenium.webdriver.common.keys import Keys

    _, address = panel("--speed", 5)
    browser.get(f"{address}#1")
    awaited(browser, "head-2", "G")
    heads = "return [...document.querySelectorAll('#intersection .head')].map((it) => it.id).sort()"
    walks = [f"walk-{p}" for p in (2, 4, 6, 8)]
    assert browser.execute_script(heads) == [*(f"head-{p}" for p in range(1, 9)), *walks]
    browser.execute_script("document.getElementById('drawn-hold-4').dispatchEvent(new Event('click'))")
    awaited(browser, "head-4", "G")
    assert browser.find_element("id", "hold-4").get_attribute("aria-pressed") == "true"
    assert awaited(browser, "vehicles-4", "G").startswith("G")
    held = browser.find_element("id", "drawn-hold-4")
    assert held.get_attribute("aria-pressed") == "true"
    held.send_keys(Keys.ENTER)
    awaited(browser, "head-2", "G")
    browser.find_element("id", "push-8").click()
    awaited(browser, "walk-8", "W")


def test_a_t_has_three_legs_and_no_placeholder(street, browser, tmp_path):  # noqa: F811
    """The side street comes from the south: its vehicles turn left or right, those from the west drive on or right."""
    (tmp_path / "elm.toml").write_text(SHEET)
    running = street("--ports", 0, "--panel", 0, "--scenario", tmp_path / "elm.toml", "--speed", 0)
    browser.get(f"{running.told(PANEL)[1]}#1")
    awaited(browser, "head-4", "R")
    roads = "return [...document.querySelectorAll('#intersection > g > .road')].map((it) => "
    assert sorted(browser.execute_script(roads + "it.parentNode.getAttribute('transform'))")) == [
        f"rotate({it} 200 200)" for it in (0, 180, 270)
    ]
    assert browser.execute_script("return document.getElementById('head-8')") is None
    parts = {p: browser.find_element("id", f"arrow-{p}").get_attribute("d").count("m") for p in (1, 2, 4, 6)}
    assert parts == {1: 1, 2: 2, 4: 2, 6: 1}
    assert not browser.find_element("id", "other-phases").is_displayed()


def test_a_preempt_without_dwell_phases_is_greyed_until_a_download_configures_it(panel, browser):  # noqa: F811
    running, address = panel("--speed", 5)
    browser.get(f"{address}#1")
    assert awaited(browser, "no-preempts", "Not configured").startswith("Not configured: 2, 3, 4, 5, 6, 7, 8.")
    assert browser.find_element("id", "preempt-1").is_enabled()
    assert not browser.find_element("id", "preempt-2").is_enabled()
    assert "no dwell phases" in browser.find_element("id", "preempt-2").get_attribute("title")
    from streettools.shared.oids import object_of

    download(running, 1, (object_of(("preempt", 2, 13)), bytes([4, 8])))
    awaited(browser, "no-preempts", "Not configured: 3, 4, 5, 6, 7, 8")
    assert browser.find_element("id", "preempt-2").is_enabled()


def test_cards_are_filtered_by_name_and_mode_and_ordered(street, browser, tmp_path):  # noqa: F811
    """Three intersections: two have "Elm & 1" or "Elm & 2" in their names; the second is put into flash."""
    from streettools.cabinet.messages import SET, message

    from .conftest import CONTROL

    (tmp_path / "elm.toml").write_text(SHEET)
    running = street("--ports", 0, "--panel", 0, "--scenario", tmp_path / "elm.toml", "--speed", 20)
    browser.get(running.told(PANEL)[1])
    awaited(browser, "cards", "free")
    running.ask(message(SET, 1, [(CONTROL, 255)]))
    awaited(browser, "cards", "flash")
    shown = "return [...document.querySelectorAll('.card:not([hidden]) strong')].map((it) => it.innerText)"
    names = ["Elm & Oak (cabinet 1)", "Elm & 1st (cabinet 2)", "Elm & 2nd (cabinet 3)"]

    def chosen(name, value):
        browser.execute_script(
            "const it = document.getElementById(arguments[0]); it.value = arguments[1];"
            "it.dispatchEvent(new Event('input'))", name, value,
        )  # fmt: skip
        return browser.execute_script(shown)

    assert browser.execute_script(shown) == names
    assert chosen("card-order", "name") == [names[1], names[2], names[0]]
    assert chosen("card-order", "number") == names
    assert chosen("card-text", "2ND") == [names[2]]
    assert text_of(browser, "card-count") == "1 of 3"
    assert chosen("card-text", "2") == [names[1], names[2]]
    assert chosen("card-text", "") == names
    assert chosen("card-kind", "XES") == [names[0]]
    assert chosen("card-kind", "F") == names[1:]
    assert chosen("card-kind", "failing") == []


def test_a_cabinet_fails_from_the_masters_note_until_it_is_good_again():
    """The notes are M lines; a note of another cabinet changes nothing."""
    state = PanelState()
    state.began({"version": 1, "rounds": 9, "ticks": 10, "cabinets": [{}, {}]})
    found = []
    for line in ("M 2 fail", "M 1 pattern 3", "M 1 fail", "M 2 good"):
        state.take(line)
        found.append([it.row()[-1] for it in state.cabinets])
    assert found == [[False, True], [False, True], [True, True], [True, False]]


def test_the_facts_of_a_cabinet_have_its_walks_and_its_preempts():
    """The standard table has walks on 2, 4, 6 and 8 and no preempt; a preempt is one with dwell phases."""
    plain, train = street_facts({"cabinets": [{}, TRAIN["cabinets"][0]]})
    assert plain["walks"] == [2, 4, 6, 8] and plain["preempts"] == [] and train["preempts"] == [1]


@pytest.mark.parametrize("width", [390, 1200])
def test_the_page_fits_a_telephone(street, browser, tmp_path, width):  # noqa: F811
    """Nothing is wider than the window, but for tables, which scroll by themselves."""
    running = street("--ports", 0, "--panel", 0, "--scenario", written(tmp_path, TRAIN), "--speed", 0)
    browser.execute_cdp_cmd(
        "Emulation.setDeviceMetricsOverride", {"width": width, "height": 800, "deviceScaleFactor": 1, "mobile": True}
    )
    address = running.told(PANEL)[1]
    for place in ("", "#1"):
        browser.get(f"{address}{place}")
        awaited(browser, "cards" if not place else "box-2", "red|1R")
        assert browser.execute_script("return document.documentElement.scrollWidth") <= width


def test_a_cabinet_is_rebooted_and_its_alarms_are_switched(panel, browser, tmp_path):  # noqa: F811
    running, address = panel("--speed", 5, "--as", "ntcip1202")
    browser.get(f"{address}#1")
    awaited(browser, "head-2", "G")
    alarm = browser.find_element("id", "alarm-stopTime")
    alarm.click()
    pressed(browser, "alarm-stopTime", "true")
    if shots := os.environ.get("SHOTS"):
        browser.execute_script("document.getElementById('alarm-part').scrollIntoView()")
        browser.save_screenshot(f"{shots}/alarms.png")
    browser.find_element("id", "reboot").click()
    # the new session begins with start-up, in which all are red; power restart is on, and messages get no answer
    awaited(browser, "head-2", "R")
    pressed(browser, "alarm-powerRestart", "true")
    pressed(browser, "hang", "true")
    browser.find_element("id", "alarm-stopTime").click()
    pressed(browser, "alarm-stopTime", "false")
    awaited(browser, "head-2", "G")
    assert running.end() == 0


def pressed(browser, name, wanted):  # noqa: F811
    """Waits until a button of the page is pressed, or isn't."""
    until = time.monotonic() + SECONDS
    while browser.find_element("id", name).get_attribute("aria-pressed") != wanted:
        assert time.monotonic() < until, f"{name} is not {wanted}"
        time.sleep(0.1)
