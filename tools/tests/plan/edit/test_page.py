"""The editor's page in a headless Chromium that is started and ended here: what is dragged and typed, what follows, and
what is kept. Expected values are computed by hand from the sheet."""

import json
import re
import shutil
import signal
import stat
import time
import urllib.request

import pytest

from ..conftest import SECONDS
from .conftest import SHEET

webdriver = pytest.importorskip("selenium.webdriver", reason="python3-selenium is not installed")
from selenium.webdriver.common.action_chains import ActionChains  # noqa: E402
from selenium.webdriver.common.by import By  # noqa: E402
from selenium.webdriver.common.keys import Keys  # noqa: E402

CHROMIUM, DRIVER = shutil.which("chromium"), shutil.which("chromedriver")
WORDS = (
    "--headless=new", "--no-sandbox", "--disable-gpu", "--disable-dev-shm-usage", "--window-size=1400,1800",
    "--hide-scrollbars",
)  # fmt: skip
pytestmark = pytest.mark.skipif(not (CHROMIUM and DRIVER), reason="chromium or chromium-driver is not installed")


@pytest.fixture(scope="module")
def driver():
    """A browser for all tests of this file."""
    options = webdriver.ChromeOptions()
    for word in WORDS:
        options.add_argument(word)
    options.set_capability("goog:loggingPrefs", {"browser": "ALL"})
    found = webdriver.Chrome(service=webdriver.chrome.service.Service(DRIVER), options=options)
    yield found
    found.quit()


class Page:
    """A page of the editor that the browser shows."""

    def __init__(self, driver, address):
        self.driver, self.address = driver, address
        driver.get(address)
        self.shows("bands", "planned")

    def run(self, script, *words):
        """Returns the result of a script."""
        return self.driver.execute_script(script, *words)

    def text(self, name):
        """Returns the text of an element."""
        return self.run("return document.getElementById(arguments[0]).innerText", name)

    def value(self, name):
        """Returns the value of a field; empty if it isn't there yet."""
        return self.run("return (document.getElementById(arguments[0]) || {}).value || ''", name)

    def until(self, holds):
        """Waits until something holds."""
        end = time.monotonic() + SECONDS
        while not (found := holds()):
            assert time.monotonic() < end, (self.text("said"), self.text("bands"), self.text("kept"))
            time.sleep(0.05)
        return found

    def shows(self, name, wanted):
        """Waits until an element shows a text, and returns it."""
        return self.until(lambda: re.search(wanted, it := self.text(name), re.S) and it)

    def has(self, name, wanted):
        """Waits until a field has a value."""
        return self.until(lambda: self.value(name) == str(wanted))

    def click(self, name):
        """Clicks an element."""
        self.driver.find_element(By.ID, name).click()

    def type(self, name, value):
        """Types a value into a field."""
        field = self.driver.find_element(By.ID, name)
        field.send_keys(Keys.CONTROL, "a")
        field.send_keys(str(value), Keys.ENTER)

    def set(self, name, value):
        """Types a value into a field, and waits until the change is made."""
        before = self.version()
        self.type(name, value)
        self.until(lambda: self.version() != before)
        self.has(name, value)

    def pixels(self, drawing, seconds):
        """Returns how many pixels of a drawing some seconds take."""
        if drawing == "rings":
            cycle = "known.facts.chosen.rings.cycle"
            place = f"(document.getElementById('cycle-handle').getCTM().e - 52) / {cycle} * 10"
            script = f"const svg = document.getElementById('rings'); return {place}"
            return seconds * self.run(script)
        left = "const box = document.querySelector('#diagram clipPath rect');"
        return seconds * self.run(f"{left} return box.width.baseVal.value / (60 * known.view.minutes)")

    def hold(self, css, by_pixels, steps=4):
        """Presses the pointer on an element, and moves it in steps; it stays pressed."""
        element = self.driver.find_element(By.CSS_SELECTOR, css)
        self.run("arguments[0].scrollIntoView({block: 'center'})", element)
        chain = ActionChains(self.driver, duration=20).click_and_hold(element)
        done = 0
        for step in range(1, steps + 1):
            now = round(by_pixels * step / steps)
            chain.move_by_offset(now - done, 0)
            done = now
        chain.perform()

    def drop(self):
        """Lets the pointer go."""
        ActionChains(self.driver).release().perform()

    def version(self):
        """Returns the number of the version."""
        return self.run("return known.state.version")


@pytest.fixture
def page(driver, editor, sheet):
    """The page of an editor of the sheet; no error may be in the browser's log at the end."""
    driver.get("about:blank")
    driver.get_log("browser")
    yield Page(driver, editor(sheet, "--port", 0).address())
    assert [it for it in driver.get_log("browser") if it["level"] == "SEVERE"] == []


def windows(page):
    """Returns the seconds of the cycle at which the planned windows of the second intersection begin."""
    return page.run("return (known.tried || known.facts.street)[1].offset / 10")


def test_a_dragged_offset_is_followed_by_bands_and_run_and_undone(page):
    """From 40 to 20 s: the T's green has all of the first intersection's 24.5 s then."""
    before = page.text("bands")
    assert page.version() == 1
    page.hold("#offset-handle-2 path", page.pixels("diagram", -20))
    page.until(lambda: page.value("offset-2") == "20" and windows(page) == 20)
    page.shows("bands", r"outbound 24.5 s planned, 2[0-9.]+ % of the time as run")
    greens = page.run("return known.shown.run.greens[0][1].filter((it) => it[0] > known.shown.run.start)")
    assert {low % 900 for low, _ in greens} == {200}
    assert page.version() == 1
    page.drop()
    page.until(lambda: page.version() == 2)
    page.shows("said", "Elm & Mill, pattern 1: offset 40 to 20 s")
    page.shows("bands", "outbound 24.5 s planned")
    assert page.run("return document.querySelectorAll('#diagram polygon.out').length") >= 5
    page.driver.find_element(By.TAG_NAME, "body").send_keys(Keys.CONTROL, "z")
    page.has("offset-2", 40)
    page.until(lambda: page.text("bands") == before)
    page.click("redo")
    page.has("offset-2", 20)


def test_an_edge_stops_where_a_rule_would_be_broken_and_says_which(page):
    """Phase 1 has 15 s and needs 9.5 s: the edge goes 5 s to the left, of the 9 s that are asked for."""
    page.hold("#edge-1 circle", page.pixels("rings", -9))
    page.shows("said", "stopped 4 s short of that: rule 18: .*give it 1 s more")
    page.drop()
    page.has("split-1", 10)
    page.has("split-2", 35)
    page.click("snap")
    page.set("split-1", 8)
    page.shows("chosen-checks", "error, rule 18")
    page.shows("bands", "the program doesn't run this plan: scenario: cabinet 1 breaks rule 18 at row 1")
    assert page.run("return document.querySelector('#slot-1 rect.frame').classList.contains('short')")
    page.shows("checks-count", "^1 error")
    page.shows("spare-1", "⚠")
    assert "minimum green 5" in page.run("return document.getElementById('spare-1').title")


def test_a_barrier_a_cycle_and_an_order_are_dragged(page):
    page.hold("#edge-2 circle", page.pixels("rings", 2))
    page.drop()
    page.has("split-2", 32)
    assert [page.value(f"split-{it}") for it in (3, 6, 7)] == ["13", "32", "13"]
    page.hold("#cycle-handle path", page.pixels("rings", -3))
    page.drop()
    page.has("cycle-1", 87)
    page.has("cycle-2", 87)
    page.hold("#slot-3 rect.body", page.pixels("rings", 25))
    page.drop()
    page.shows("said", "phase 4 before phase 3")
    order = "return [...known.facts.chosen.rings.slots].filter((it) => it.ring === 1).map((it) => it.phase)"
    page.until(lambda: page.run(order) == [1, 2, 4, 3])
    page.click("swap-4")
    page.until(lambda: page.run(order) == [1, 2, 3, 4])


def test_what_is_typed_and_saved_keeps_comments_and_is_there_after_a_reload(page, sheet):
    page.set("offset-2", 25)
    page.type("yellow-2", 4.2)
    page.shows("said", "phase 2, yellow: 4.0 to 4.2 s")
    assert sheet.read_text() == SHEET
    draft = sheet.with_name("elm.toml.draft")
    page.until(draft.exists)
    assert stat.S_IMODE(draft.stat().st_mode) == 0o600
    page.shows("kept", "aren't saved yet")
    page.driver.find_element(By.TAG_NAME, "body").send_keys(Keys.CONTROL, "s")
    page.shows("kept", "elm.toml: saved")
    aim = SHEET.replace("offset = 40", "offset = 25").replace(
        '2 = {name = "Elm eastbound"}', '2 = {name = "Elm eastbound", yellow = 4.2}'
    )
    assert sheet.read_text() == aim
    assert not draft.exists()
    page.driver.refresh()
    page.has("offset-2", 25)
    page.has("yellow-2", 4.2)
    page.click("undo")
    page.shows("kept", "aren't saved yet")


def test_two_pages_show_the_same_plan(page):
    driver, first = page.driver, page.driver.current_window_handle
    driver.switch_to.new_window("window")
    second = driver.current_window_handle
    try:
        other = Page(driver, page.address)
        other.set("offset-1", 7)
        other.shows("kept", "2 pages are open")
        driver.switch_to.window(first)
        page.has("offset-1", 7)
        page.click("undo")
        page.has("offset-1", 0)
        driver.switch_to.window(second)
        other.has("offset-1", 0)
    finally:
        driver.switch_to.window(second)
        driver.close()
        driver.switch_to.window(first)


def test_a_typed_value_is_replaced_by_what_another_page_makes_of_it(page):
    """Also if the change and its undo come so fast that the page is only shown the plan as it was before."""
    page.run("window.takes = takeVersion; takeVersion = (told) => { if (told.version !== 2) takes(told); };")
    page.type("offset-1", 7)
    page.until(lambda: page.version() == 2)
    assert page.value("offset-1") == "7"
    page.run("step(true)")
    page.until(lambda: page.version() == 1)
    page.has("offset-1", 0)


def test_a_file_that_another_program_has_changed_is_asked_about(page, sheet):
    page.set("offset-2", 31)
    sheet.write_text(SHEET.replace("offset = 40", "offset = 33"))
    page.shows("kept", "another program has changed the file")
    page.click("save")
    page.shows("question", "Another program has changed the file")
    assert "offset = 33" in sheet.read_text()
    page.click("load")
    page.has("offset-2", 33)
    page.shows("kept", "elm.toml: saved")
    page.click("undo")
    page.has("offset-2", 31)
    sheet.write_text(SHEET.replace("offset = 40", "offset = 35"))
    page.click("save")
    page.shows("question", "Another program has changed the file")
    page.click("over")
    page.shows("kept", "elm.toml: saved")
    assert "offset = 31" in sheet.read_text()


def test_a_file_with_fewer_intersections_is_taken(page, sheet):
    page.click("choose-2")
    page.shows("chosen-title", "Elm & Mill")
    sheet.write_text(SHEET[: SHEET.index('[[intersection]]\nname = "Elm & Mill"')])
    page.shows("kept", "another program has changed the file")
    page.click("save")
    page.shows("question", "Another program")
    page.click("load")
    page.shows("chosen-title", r"Elm & Oak \(intersection 1\)")
    page.shows("bands", "bands need a pattern, and two intersections")
    page.click("undo")
    page.until(lambda: page.run("return document.querySelectorAll('#intersections tbody tr').length") == 2)


def test_after_a_kill_the_draft_is_offered_and_nothing_is_changed_before_the_answer(driver, editor, sheet):
    first = editor(sheet)
    page = Page(driver, first.address())
    page.type("offset-2", 22)
    page.until(sheet.with_name("elm.toml.draft").exists)
    page.until(lambda: "offset = 22" in json.loads(sheet.with_name("elm.toml.draft").read_text())["text"])
    first.end(signal.SIGKILL)
    page.shows("ending", "doesn't answer")
    again = editor(sheet)
    page = Page(driver, again.address())
    page.shows("question", "A draft of .* has changes that weren't saved")
    page.has("offset-2", 40)
    page.type("offset-2", 23)
    page.shows("said", "answer first whether the draft is taken")
    page.click("take-draft")
    page.has("offset-2", 22)
    page.click("save")
    page.shows("kept", "elm.toml: saved")
    assert again.end() == 0
    assert "offset = 22" in sheet.read_text() and not sheet.with_name("elm.toml.draft").exists()


def test_an_editor_that_ends_with_changes_says_where_they_are_and_a_draft_can_be_dropped(driver, editor, sheet):
    first = editor(sheet)
    page = Page(driver, first.address())
    page.set("offset-2", 22)
    assert first.end() == 0
    assert first.said[-1] == f"plan: what isn't saved is in {sheet}.draft; the next start of the editor offers it"
    page = Page(driver, editor(sheet).address())
    page.shows("question", "A draft")
    page.click("drop-draft")
    page.until(lambda: not sheet.with_name("elm.toml.draft").exists())
    page.has("offset-2", 40)


def test_everything_is_changed_with_the_keyboard(page):
    page.driver.find_element(By.ID, "offset-handle-2").send_keys(Keys.ARROW_RIGHT, Keys.ARROW_RIGHT, Keys.PAGE_UP)
    page.has("offset-2", 47)
    page.until(lambda: page.version() == 2)
    page.driver.find_element(By.ID, "edge-1").send_keys(Keys.ARROW_RIGHT)
    page.has("split-1", 16)
    page.driver.find_element(By.ID, "cycle-handle").send_keys(Keys.ARROW_UP)
    page.has("cycle-1", 91)
    page.driver.find_element(By.ID, "choose-2").send_keys(Keys.ENTER)
    page.shows("chosen-title", "Elm & Mill")
    assert page.driver.find_element(By.ID, "edge-1").get_attribute("role") == "slider"


def test_an_offset_is_dragged_by_touch(page):
    page.run("document.getElementById('offset-handle-2').scrollIntoView({block: 'center'})")
    box = page.run("const it = document.querySelector('#offset-handle-2 path').getBoundingClientRect();"
                   "return [it.x + it.width / 2, it.y + it.height / 2]")  # fmt: skip
    way = page.pixels("diagram", 10)

    def touch(kind, *points):
        given = {"type": kind, "touchPoints": [{"x": x, "y": y} for x, y in points]}
        page.driver.execute_cdp_cmd("Input.dispatchTouchEvent", given)

    touch("touchStart", box)
    for part in (0.3, 0.6, 1):
        touch("touchMove", (box[0] + part * way, box[1]))
    touch("touchEnd")
    page.has("offset-2", 50)
    page.until(lambda: page.version() == 2)


def test_two_versions_are_compared_side_by_side(page):
    page.set("offset-2", 20)
    page.click("beside")
    page.shows("other-title", "Before: the file")
    rows = "return [...document.querySelectorAll('#measures tbody tr')].map((it) => it.innerText.split('\\t'))"
    page.until(lambda: len(page.run(rows)) == 4 and page.run(rows)[0][2] == "24.5 s")
    first = page.run(rows)[0]
    assert first[0] == "widest planned band, outbound"
    assert float(first[1].split()[0]) < 24.5 and first[3].startswith("+")


def test_pattern_time_and_calls_are_chosen(page):
    page.run("const it = document.getElementById('time'); it.value = '08:30:00'; it.dispatchEvent(new Event('change'))")
    page.until(lambda: page.run("return known.shown.run && known.shown.run.start") == 36_000 * 8.5)
    assert page.run("return known.shown.run.walks[4].length") == 0
    page.run("const it = document.getElementById('calls'); it.value = 'people'; it.dispatchEvent(new Event('change'))")
    page.until(lambda: page.run("return known.shown.run.walks && known.shown.run.walks[4].length"))
    page.run("const it = document.getElementById('pattern'); it.value = '0'; it.dispatchEvent(new Event('change'))")
    page.shows("bands", "bands need a pattern")


def test_each_section_has_its_diagram(driver, editor, tmp_path):
    sheet = tmp_path / "sections.toml"
    sheet.write_text(SHEET + '\n[[intersection]]\nname = "Pine & Oak"\nsection = 2\n')
    page = Page(driver, editor(sheet).address())
    rows = "return [...document.querySelectorAll('#diagram text.name')].map((it) => it.textContent)"
    page.until(lambda: page.run(rows) == ["Elm & Oak", "Elm & Mill"])
    chosen = "const it = document.getElementById('intersection'); it.value = '3'; it.dispatchEvent(new Event('change'))"
    page.run(chosen)
    page.until(lambda: page.run(rows) == ["Pine & Oak"])
    page.shows("chosen-title", "Pine & Oak")


def test_a_version_is_exported_for_other_programs(page):
    page.set("offset-2", 20)
    found = {}
    for kind in ("sheet", "scenario", "utdf", "loads"):
        with urllib.request.urlopen(page.run(f"return document.getElementById('export-{kind}').href")) as answer:
            found[kind] = answer.read().decode()
            assert answer.headers["Content-Disposition"].startswith('attachment; filename="elm')
    assert found["sheet"] == SHEET.replace("offset = 40", "offset = 20")
    assert ["pattern", 1, 3, 20] in json.loads(found["scenario"])["cabinets"][1]["cells"]
    assert json.loads(found["loads"]) == {"loads": [{"round": 1, "cabinet": 2, "cells": [["pattern", 1, 3, 20]]}]}
    assert "[Timeplans]" in found["utdf"]


RATIO = """
const light = (it) => { const parts = it.match(/[\\d.]+/g).map((n) => n / 255).map((c) => c <= 0.03928 ? c / 12.92 :
  ((c + 0.055) / 1.055) ** 2.4); return 0.2126 * parts[0] + 0.7152 * parts[1] + 0.0722 * parts[2]; };
const probe = document.createElement('p'); document.body.append(probe);
const colour = (name) => { probe.style.color = `var(--${name})`; return light(getComputedStyle(probe).color); };
const found = arguments[0].map(([one, other]) => { const [a, b] = [colour(one), colour(other)].sort().reverse();
  return (Math.max(a, b) + 0.05) / (Math.min(a, b) + 0.05); });
probe.remove(); return found;
"""
PAIRS = [["text", "back"], ["text", "box"], ["text", "slot"], ["dim", "back"], ["dim", "box"], ["link", "back"],
         ["red", "back"], ["letter", "red"]]  # fmt: skip


def test_all_has_names_contrast_and_no_motion_and_nothing_is_from_elsewhere(page):
    unnamed = page.run(
        "return [...document.querySelectorAll('button, input, select, [role=slider], svg[role]')].filter((it) => "
        "!(it.textContent.trim() && it.tagName === 'BUTTON' || it.getAttribute('aria-label') || "
        "(it.labels && it.labels.length))).map((it) => it.outerHTML.slice(0, 80))"
    )
    assert unnamed == []
    for scheme in ("light", "dark"):
        feature = [{"name": "prefers-color-scheme", "value": scheme}]
        page.driver.execute_cdp_cmd("Emulation.setEmulatedMedia", {"features": feature})
        assert min(page.run(RATIO, PAIRS)) >= 4.5, scheme
    page.driver.execute_cdp_cmd("Emulation.setEmulatedMedia", {"features": []})
    assert page.run("return document.getAnimations().length") == 0
    from_elsewhere = "performance.getEntriesByType('resource').filter((it) => !it.name.startsWith(location.origin))"
    assert page.run(f"return {from_elsewhere}.length") == 0


def test_a_print_has_the_drawings_and_no_buttons(page):
    page.driver.execute_cdp_cmd("Emulation.setEmulatedMedia", {"media": "print"})
    try:
        hidden = "return ['undo', 'pattern', 'said'].every((id) => !document.getElementById(id).offsetParent)"
        assert page.run(hidden)
        assert page.text("title") == "Elm Street"
        assert page.text("diagram-title") == "Now: pattern 1, 10 minutes from 07:00:00"
        assert page.run("return document.getElementById('diagram').getBoundingClientRect().height") > 50
        assert len(page.driver.print_page()) > 10_000
    finally:
        page.driver.execute_cdp_cmd("Emulation.setEmulatedMedia", {"media": ""})


VOLUMES = """
title = "Elm Street"
[[cabinet]]
number = 1
movements = [
  {name = "EBT", phase = 2, volume = 400, lanes = 2, to = "2 EB"}, {name = "EBL", phase = 5, volume = 20},
  {name = "WBT", phase = 6, volume = 300, lanes = 2}, {name = "WBL", phase = 1, volume = 20},
  {name = "NBT", phase = 4, volume = 60}, {name = "NBL", phase = 7, volume = 20},
  {name = "SBT", phase = 8, volume = 60}, {name = "SBL", phase = 3, volume = 20},
]
[[cabinet]]
number = 2
movements = [
  {name = "EBT", phase = 2, volume = 400, lanes = 2}, {name = "WBT", phase = 6, volume = 300, lanes = 2, to = "1 WB"},
  {name = "WBL", phase = 1, volume = 40}, {name = "NBL", phase = 4, volume = 60},
]
"""


def test_delay_stops_and_queues_are_measured_before_and_after(driver, editor, sheet, tmp_path):
    volumes = tmp_path / "volumes.toml"
    volumes.write_text(VOLUMES)
    page = Page(driver, editor(sheet, "--volumes", volumes, "--seconds", 300).address())
    page.type("offset-2", 80)
    rows = "return [...document.querySelectorAll('#measures tbody tr')].map((it) => it.innerText.split('\\t'))"
    page.until(lambda: len(page.run(rows)) == 13 and page.run(rows)[4][1] != page.run(rows)[4][2])
    row = page.run(rows)[4]
    assert row[0] == "delay of a vehicle, street" and float(row[1].split()[0]) > 0
    names = [it[0] for it in page.run(rows)]
    assert "longest queue, Elm & Mill" in names and "stops of a vehicle, Elm & Oak" in names
