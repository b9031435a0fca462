"""The page of a log in a real browser: a breach is found by its words, and shown where it is."""

import shutil
import time

import pytest

from .conftest import TOP

webdriver = pytest.importorskip("selenium.webdriver", reason="python3-selenium is not installed")
from streettools.look.page import writing  # noqa: E402

CHROMIUM, DRIVER = shutil.which("chromium"), shutil.which("chromedriver")
WORDS = ("--headless=new", "--no-sandbox", "--disable-gpu", "--disable-dev-shm-usage", "--window-size=1400,1000")
DEVICES = [word for number in range(1, 5) for word in ("--device", f"700{number}={number}")]
pytestmark = [
    pytest.mark.skipif(not (CHROMIUM and DRIVER), reason="chromium or chromium-driver is not installed"),
    pytest.mark.skipif(not writing.LIBRARY.exists(), reason="node-d3 is not installed"),
]


@pytest.fixture
def driver():
    """A browser."""
    options = webdriver.ChromeOptions()
    for word in WORDS:
        options.add_argument(word)
    found = webdriver.Chrome(service=webdriver.chrome.service.Service(DRIVER), options=options)
    try:
        yield found
    finally:
        found.quit()


def test_the_breach_of_the_example_is_found_on_its_page(log, driver, tmp_path):
    logs = TOP / "scenarios/logs"
    page = tmp_path / "day.html"
    given = (logs / "river-road.csv.gz", "--sheet", logs / "river-road.toml", *DEVICES, "--page", page)
    said = log("judge", *given, status=8).out
    assert said.startswith("River Rd & Oak Ave, 2026-11-27 07:01:14.7: phase 4 red clearance and phase 6 green")
    driver.get(f"{page.as_uri()}#from=500&to=1300&cabinet=2&find=phase%204%20red")
    end = time.monotonic() + 120
    while not driver.execute_script("return document.body.dataset.open"):
        assert time.monotonic() < end, "it takes too long"
        time.sleep(0.05)
    marks = driver.execute_script(
        "const c = Data.cabinet(2); return Marks.near(c, 747, 3).map(i => [c.marks.tick[i], Marks.kind(c, i), "
        "Marks.words(c, i)])"
    )
    assert marks == [[747, "breach", "phase 4 red clearance and phase 6 green together; the plan has them in conflict"]]
    assert "breach of the plan" in driver.find_element("tag name", "body").text
