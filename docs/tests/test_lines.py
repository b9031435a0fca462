"""No document has a line of more than 120 columns outside tables; each file and each heading that a document links to
is there; and README leads to every document."""

import functools
import pathlib
import re

import pages
import pytest
from pages import TOP

MOST = 120
LONG = {
    "docs/TRACE.md": re.compile(r"    A "),
    "docs/FIELD-FILE.md": re.compile(r'    \{"cabinets":'),
}
"""By page, the lines of data that can't be broken: replies in a trace; a scenario as `respond` writes it."""


def lines_of(page) -> list[str]:
    """Returns the lines of a page."""
    return (TOP / page).read_text(encoding="utf-8").splitlines()


@pytest.mark.parametrize("page", pages.pages(), ids=str)
def test_a_page_has_no_long_lines(page):
    data = LONG.get(str(page))
    long = [
        number
        for number, it in enumerate(lines_of(page), 1)
        if len(it) > MOST and not it.startswith("|") and not (data and data.match(it))
    ]
    assert long == []


def test_the_lines_of_data_are_there():
    for page, data in LONG.items():
        assert any(len(it) > MOST and data.match(it) for it in lines_of(page))


def links(page) -> list[tuple[str, str]]:
    """Returns the links of a page within this repository: the file, empty if it is the page itself, and the anchor."""
    return re.findall(r"\]\(([^)#:\s]*)(?:#([^)\s]*))?\)", "\n".join(lines_of(page)))


def anchor(title: str) -> str:
    """Returns the anchor of a heading, as GitHub makes it."""
    return re.sub(r"[^\w\- ]", "", title.strip().lower()).replace(" ", "-")


@functools.cache
def anchors(file: pathlib.Path) -> list[str]:
    """Returns the anchors of a file: of its headings, and those that it sets itself."""
    text = file.read_text(encoding="utf-8")
    return [anchor(it) for it in re.findall(r"^#+ (.*)$", text, re.M)] + re.findall(r'<a id="([^"]*)">', text)


@pytest.mark.parametrize("page", pages.pages(), ids=str)
def test_what_a_page_links_to_is_there(page):
    home = TOP / page
    assert [file for file, _ in links(page) if not home.parent.joinpath(file).exists()] == []
    named = [(home.parent / file if file else home, name) for file, name in links(page) if name]
    assert [(str(file), name) for file, name in named if name not in anchors(file)] == []


def test_an_anchor_is_made_of_a_heading():
    """By https://github.com/gjtorikian/html-pipeline: lower case, no punctuation, a hyphen for each space."""
    assert anchor("What is proved, and what is not") == "what-is-proved-and-what-is-not"
    assert anchor("`detectors.json`") == "detectorsjson" and anchor("Clock, mode (`a.py`)") == "clock-mode-apy"


def test_readme_leads_to_every_document():
    """Over links of documents, in any number of steps; no document is known only to those who list the folders."""
    found, left = set(), [TOP / "README.md"]
    while left:
        page = left.pop()
        if page in found or page.suffix != ".md":
            continue
        found.add(page)
        left += [(page.parent / file).resolve() for file, _ in links(page.relative_to(TOP)) if file]
    assert sorted(str(it) for it in pages.pages() if TOP / it not in found) == []
