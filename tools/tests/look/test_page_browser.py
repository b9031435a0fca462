"""A page as a browser shows it, in a headless Chromium that is started and ended here: it opens, moves, finds,
measures, and tells under the pointer what the lines of the trace say. Expected values come from the traces' own
lines."""

import base64
import shutil
import time

import pytest

from .conftest import SMALL, STREET, VECTORS

webdriver = pytest.importorskip("selenium.webdriver", reason="python3-selenium is not installed")
from selenium.webdriver.common.action_chains import ActionChains  # noqa: E402
from selenium.webdriver.common.actions.wheel_input import ScrollOrigin  # noqa: E402
from selenium.webdriver.common.by import By  # noqa: E402
from selenium.webdriver.common.keys import Keys  # noqa: E402
from streettools.look.page import writing  # noqa: E402

CHROMIUM, DRIVER = shutil.which("chromium"), shutil.which("chromedriver")
WORDS = (
    "--headless=new",
    "--no-sandbox",
    "--disable-gpu",
    "--disable-dev-shm-usage",
    "--window-size=1400,1000",
    "--hide-scrollbars",
)
pytestmark = [
    pytest.mark.skipif(not (CHROMIUM and DRIVER), reason="chromium or chromium-driver is not installed"),
    pytest.mark.skipif(not writing.LIBRARY.exists(), reason="node-d3 is not installed"),
]
PREEMPTS, LOADS = VECTORS[1], VECTORS[2]


@pytest.fixture(scope="module")
def driver():
    """A browser for all tests of this file, without a network."""
    options = webdriver.ChromeOptions()
    for word in WORDS:
        options.add_argument(word)
    options.set_capability("goog:loggingPrefs", {"browser": "ALL"})
    found = webdriver.Chrome(service=webdriver.chrome.service.Service(DRIVER), options=options)
    try:
        found.execute_cdp_cmd("Emulation.setTouchEmulationEnabled", {"enabled": True, "maxTouchPoints": 2})
        found.execute_cdp_cmd("Network.enable", {})
        offline = {"offline": True, "latency": 0, "downloadThroughput": 0, "uploadThroughput": 0}
        found.execute_cdp_cmd("Network.emulateNetworkConditions", offline)
        yield found
    finally:
        found.quit()


class Shown:
    """A page that the browser shows."""

    def __init__(self, driver, address):
        self.driver, self.address = driver, address
        driver.get("about:blank")
        driver.get(address)
        self.until(lambda: self.run("return document.body.dataset.open"))

    def until(self, holds):
        """Waits until something holds, two minutes at most on a busy machine."""
        end = time.monotonic() + 120
        while not holds():
            assert time.monotonic() < end, self.text("fault") or "it takes too long"
            time.sleep(0.02)

    def run(self, code, *given):
        """Runs code in the page and returns its value."""
        return self.driver.execute_script(code, *given)

    def text(self, name):
        """Returns the text of a part of the page."""
        return self.run("return document.getElementById(arguments[0]).textContent", name)

    def settle(self):
        """Waits until the browser has drawn what changed."""
        self.driver.execute_async_script(
            "const done = arguments[0]; requestAnimationFrame(() => requestAnimationFrame(() => done()));"
        )

    def view(self):
        """Returns the ticks from which and to which is looked."""
        self.settle()
        return self.run("return [View.state.from, View.state.to].map(it => Number(it.toFixed(6)))")

    def area(self, panel):
        """Returns the pictures of a panel, scrolled into the window."""
        found = self.driver.find_element(By.CSS_SELECTOR, f"#{panel} .area")
        self.run("arguments[0].scrollIntoView({block: 'center'})", found)
        self.settle()
        return found

    def point(self, panel, x, y):
        """Puts the pointer on a place of a panel, and returns it in the panel's pictures."""
        area = self.area(panel)
        size = area.size
        shift = (round(x - size["width"] / 2), round(y - size["height"] / 2))
        ActionChains(self.driver, duration=0).move_to_element_with_offset(area, *shift).perform()
        self.settle()

    def press(self, *keys):
        """Presses keys, one after another."""
        for key in keys:
            ActionChains(self.driver, duration=0).send_keys(key).perform()
            self.settle()

    def find(self, text):
        """Looks for a text; returns what is told of the hits."""
        field = self.driver.find_element(By.ID, "find")
        field.clear()
        field.send_keys(text, Keys.ENTER)
        self.settle()
        field.send_keys(Keys.ESCAPE)
        return self.text("hit")

    def faults(self):
        """Returns what the browser had to complain of."""
        return [it["message"] for it in self.driver.get_log("browser") if it["level"] == "SEVERE"]


@pytest.fixture
def shown(driver, look, tmp_path):
    """Writes the page of a trace and shows it."""

    def done(*words, given=None, at=""):
        path = tmp_path / "page.html"
        look("page", "-o", path, *words, given=given)
        return Shown(driver, f"file://{path}{at}")

    return done


def frames(path, cabinet):
    """Returns a cabinet's F lines by their ticks, straight from a trace."""
    lines = [line for line in path.read_text().splitlines() if line.startswith(f"F {cabinet} ")]
    return {int(line.split(" ")[2]): line for line in lines}


def due(path, cabinet, tick):
    """Returns the F line that tells what a cabinet shows after a tick."""
    lines = frames(path, cabinet)
    return lines[max(it for it in lines if it <= tick)]


def test_a_page_opens_without_a_network_and_without_complaint(shown):
    page = shown("--travel", "20,20,20", STREET)
    assert page.driver.title == "A run of 4 cabinets" and page.view() == [0, 9600]
    assert page.run("return Panel.all.map(it => it.id)") == ["overview", "street", "rings"]
    assert page.run("return document.getElementById('fault').hidden") and page.faults() == []


@pytest.mark.parametrize("path, cabinets", [(STREET, 4), (PREEMPTS, 1), (LOADS, 2)])
def test_the_line_under_the_pointer_is_that_of_the_trace(shown, path, cabinets):
    page = shown(path)
    for cabinet in range(1, cabinets + 1):
        for x in (3, 171, 402, 640, 1001, 1177):
            page.point("overview", x, 29 * cabinet - 14)
            low, high = page.view()
            tick = int(low + (high - low) * x / page.run("return View.state.width") + 1e-6)
            assert page.text("at").startswith(f"tick {tick} · ") and page.text("at").endswith(f"Cabinet {cabinet}")
            assert page.text("line") == due(path, cabinet, tick)


def test_a_click_on_a_call_shows_the_command_that_says_why(shown):
    page = shown(given=SMALL)
    rows = "Panel.all.find(it => it.id === 'rings').rows.rows"
    y = page.run(f"const it = {rows}.find(it => it.kind === 'calls'); return it.y + it.height / 2")
    page.point("rings", page.run("return View.state.x(100.5)"), y)
    ActionChains(page.driver, duration=0).click().perform()
    page.settle()
    tick = page.run("return Pointer.state.tick")
    assert page.text("why") == f"./arterial why TRACE --cabinet 1 --phase 4 --at {tick}t" and abs(tick - 100) < 5


def test_each_tick_can_be_seen_by_itself(shown):
    """At twelve ticks across the picture, the lines around tick 160 of the car on the side street change at 160."""
    page = shown(given=SMALL, at="#from=154&to=166")
    step = page.run("return View.state.width") / 12
    lines = []
    for place in range(12):
        page.point("rings", (place + 0.5) * step, 30)
        lines.append(page.text("line").split(" ")[2])
    assert lines == ["60"] * 6 + ["160"] * 6


def test_the_wheel_zooms_about_the_pointer(shown):
    page = shown(STREET)
    page.point("street", 400, 30)
    before = page.text("at").split(" ")[1]
    area = page.driver.find_element(By.CSS_SELECTOR, "#street .area")
    origin = ScrollOrigin.from_element(area, round(400 - area.size["width"] / 2), round(30 - area.size["height"] / 2))
    ActionChains(page.driver, duration=0).scroll_from_origin(origin, 0, -900).perform()
    low, high = page.view()
    assert high - low < 5000 and abs(int(page.text("at").split(" ")[1]) - int(before)) <= 1


def test_two_fingers_zoom(shown):
    page = shown(STREET)
    box = page.area("rings").rect
    x, y = box["x"] + 500, box["y"] + 30 - page.run("return scrollY")
    for kind, half in (("touchStart", 50), ("touchMove", 70), ("touchMove", 100), ("touchEnd", 0)):
        points = [{"x": x - half, "y": y, "id": 0}, {"x": x + half, "y": y, "id": 1}] if half else []
        page.driver.execute_cdp_cmd("Input.dispatchTouchEvent", {"type": kind, "touchPoints": points})
    low, high = page.view()
    assert 4700 <= high - low <= 4900


def test_a_drag_moves_the_time(shown):
    page = shown(STREET, at="#from=1000&to=2000")
    area, width = page.area("rings"), page.run("return View.state.width")
    hand = ActionChains(page.driver, duration=0).move_to_element(area)
    hand.click_and_hold().move_by_offset(-200, 0).release().perform()
    low, high = page.view()
    assert low == pytest.approx(1000 + 200 * 1000 / width, abs=1.5) and high - low == pytest.approx(1000)


def test_keys_move_zoom_and_choose(shown):
    page = shown(STREET)
    page.press("+", "+")
    assert page.view() == [3600, 6000]
    page.press(Keys.ARROW_RIGHT)
    assert page.view() == [3960, 6360]
    page.press(Keys.END)
    assert page.view() == [7200, 9600]
    page.press("]", "]", "[")
    assert page.run("return document.querySelector('#rings h2').textContent") == "Rings of cabinet 2"
    page.press("t")
    assert page.view()[1] - page.view()[0] == pytest.approx(12)
    page.press("0")
    assert page.view() == [0, 9600]


def test_a_search_for_a_preempt_goes_to_each_in_turn(shown):
    """The hits are the ticks at which the mode becomes P2d."""
    lines = list(frames(PREEMPTS, 1).items())
    ticks = [tick for (_, before), (tick, line) in zip(lines, lines[1:]) if " P2d " in line and " P2d " not in before]
    page = shown(PREEMPTS)
    assert page.find("cabinet 1 preempt 2 dwell") == f"1 of {len(ticks)}"
    found = []
    for _ in ticks:
        found.append(page.run("return View.state.hit"))
        assert page.text("at").startswith(f"tick {found[-1]} ") and page.text("line") == due(PREEMPTS, 1, found[-1])
        page.press("n")
    assert found == ticks and page.run("return View.state.hit") == ticks[0]
    page.press("N")
    assert page.text("hit") == f"{len(ticks)} of {len(ticks)}"


def test_a_search_for_refused_finds_notes_and_downloads_that_say_so(shown):
    """Each line of the trace that says so is a hit; the others are Sets that a reply refuses."""
    lines = [line for line in LOADS.read_text().splitlines() if line[0] in "ML" and "refused" in line]
    page = shown(LOADS)
    assert page.find("refused").startswith("1 of ")
    hits = page.run("return [...document.querySelectorAll('#hits li')].map(it => it.textContent)")
    assert sum("refused Set" not in it for it in hits) == len(lines) > 0
    assert int(page.text("hit").split(" ")[-1]) == len(hits)
    of_two = int(page.find("cabinet 2 refused").split(" ")[-1])
    assert of_two == sum("Cabinet 2" in it for it in hits) > 0
    assert (
        page.find("cabinet 2 nothing like it") == "nothing"
        and page.run("return document.getElementById('hits').hidden")
    )


def test_a_search_goes_to_a_tick_and_to_a_time(shown):
    page = shown(STREET)
    page.find("cabinet 3 tick 1234")
    assert page.text("at").startswith("tick 1234 · 2:03.4 · ") and page.text("line") == due(STREET, 3, 1234)
    page.find("10:00.5")
    assert page.text("at").startswith("tick 6005 · ")


def test_a_time_of_day_is_sought_as_the_axis_writes_it(shown):
    page = shown("--start", "06:59:00", STREET)
    for text in ("07:00:00", "07:00"):
        page.find("tick 5")
        page.find(text)
        assert page.text("at").startswith("tick 600 · 07:00:00 · ")


def test_the_ruler_measures_between_two_lines_of_the_trace(shown):
    """A drag with Shift from near tick 160, yellow change, to near tick 215, the next green: 5.5 s."""
    page = shown(given=SMALL, at="#from=100&to=300")
    area, width = page.area("rings"), page.run("return View.state.width")
    start, length = round(60 * width / 200) + 2, round(55 * width / 200) - 4
    shift = (round(start - area.size["width"] / 2), round(30 - area.size["height"] / 2))
    chain = ActionChains(page.driver, duration=0).move_to_element_with_offset(area, *shift).key_down(Keys.SHIFT)
    chain.click_and_hold().move_by_offset(length, 0).release().key_up(Keys.SHIFT).perform()
    page.settle()
    assert page.text("ruler") == "ruler: A tick 160 (0:16), B tick 215 (0:21.5): 5.5 s, 55 ticks"
    assert page.view() == [100, 300]
    page.press(Keys.ESCAPE)
    assert page.text("ruler") == ""


def test_a_link_opens_the_same_view(shown):
    page = shown(STREET, at="#from=6000&to=7000&cabinet=3&a=6060&b=6305&street=2,3,4&travel=20&find=pattern")
    wanted = page.run("return {...View.state}")
    page.until(lambda: "find=pattern" in page.driver.current_url)
    again = Shown(page.driver, page.driver.current_url)
    assert again.run("return {...View.state}") == wanted
    found = [wanted[name] for name in ("from", "to", "cabinet", "street", "travel")]
    assert found == [6000, 7000, 3, [2, 3, 4], [200, 200]]
    assert again.text("ruler").endswith("24.5 s, 245 ticks")
    again = Shown(page.driver, f"{page.address.split('#')[0]}#from=-5&to=x&cabinet=99&street=7&a=1e9")
    assert again.view() == [0, 9600] and again.run("return View.state.cabinet") == 1 and again.faults() == []


def test_bands_with_travel_times_that_are_typed_in(shown):
    """Worked out for the street of `street.py`: from 5460 on, bands of 245 ticks leave every 900 ticks, and
    none goes inbound."""
    page = shown(STREET)
    field = page.driver.find_element(By.ID, "travel")
    field.send_keys("20", Keys.ENTER)
    page.settle()
    out, back = page.run("return Bands.ways(View.state.street, View.state.travel).map(it => it.spans)")
    assert [low for low, high in out if high - low == 245 and low >= 5460] == [5460, 6360, 7260, 8160]
    assert [it for it in back if it[0] >= 5460] == []
    field.send_keys(",1,2,3", Keys.ENTER)
    page.settle()
    assert "4 cabinets are one number, or 3" in page.text("fault")


def test_shares_far_out_add_up_to_the_greens_of_the_trace(shown):
    lines = list(frames(STREET, 2).items()) + [(9600, "")]
    green = sum(until - tick for (tick, line), (until, _) in zip(lines, lines[1:]) if line.split(" ")[3][1] == "G")
    page = shown(STREET)
    assert page.run("const it = Lanes.coordinated(Data.cabinet(2), 0).before[0]; return it[it.length - 1]") == green


def test_names_stand_beside_the_lanes(shown, tmp_path):
    names = tmp_path / "x.names.json"
    names.write_text(
        '{"title": "Main Street", "intersections": [{"name": "Main St & <b>Mill</b> Rd", "phases": {"4": {"name": '
        '"Mill Rd"}}}]}'
    )
    page = shown("--names", names, given=SMALL)
    labels = page.run("return [...document.querySelectorAll('.labels text')].map(it => it.textContent)")
    assert labels[0] == "Main St & <b>Mill</b> Rd (cabinet 1)" and page.driver.title == "Main Street"
    assert page.faults() == []


def test_long_names_are_whole(shown, tmp_path):
    """Two lines of a row hold a usual name; 90 letters are drawn narrower. Nothing begins left of the page."""
    names = tmp_path / "x.names.json"
    long = "Harbor Boulevard & Frontage Road " * 3
    phases = '{"4": {"name": "Frontage Road northbound and left turns"}}'
    names.write_text(
        f'{{"intersections": [{{"name": "{long.strip()}", "phases": {phases}}}, {{"name": "Harbor Blvd & Depot St"}}]}}'
    )
    page = shown("--names", names, STREET)
    labels = page.run(
        "return [...document.querySelectorAll('.labels text')].map(it => [it.textContent, it.getBBox().x])"
    )
    told = [text for text, _ in labels]
    assert f"{long.strip()} (cabinet 1)" in told and "Harbor Blvd & Depot St (cabinet 2)" in told
    assert all(x >= 0 for _, x in labels) and page.faults() == []


def test_a_view_is_printed(shown):
    page = shown("--travel", "20,20,20", STREET, at="#from=5000&to=9000")
    width = page.run("return document.querySelector('#rings canvas').width")
    octets = base64.b64decode(page.driver.execute_cdp_cmd("Page.printToPDF", {"preferCSSPageSize": True})["data"])
    assert octets.startswith(b"%PDF") and len(octets) > 10_000
    page.settle()
    assert page.run("return document.querySelector('#rings canvas').width") == width and page.view() == [5000, 9000]
