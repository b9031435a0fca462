"""The examples of docs/TICK.md, whose frame lines were worked out by its rules, are what the model writes."""

import re
from pathlib import Path

import pytest

from model.commands import answer

PAGE = Path(__file__).resolve().parents[2] / "docs/TICK.md"
BLOCK = re.compile(r"(?:^    [{ F].*\n)+", re.MULTILINE)


def examples() -> list[tuple[str, list[str]]]:
    """Returns each example: the text of its scenario, and its frame lines."""
    blocks = ["".join(line[4:] + "\n" for line in block.splitlines()) for block in BLOCK.findall(PAGE.read_text())]
    return [(text, frames.splitlines()) for text, frames in zip(blocks[::2], blocks[1::2], strict=True)]


@pytest.mark.parametrize(("text", "frames"), examples(), ids=["gap-and-maximum", "force-off", "dwell"])
def test_an_example_of_the_page_is_what_the_model_writes(text, frames):
    told = answer(["run"], text.encode())
    assert [line for line in told.output.decode().splitlines() if line.startswith("F ")] == frames
