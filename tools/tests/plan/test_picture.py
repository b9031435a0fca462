"""What a picture of a plan marks."""

import re
from xml.etree import ElementTree

import pytest
from streettools.plan import layout, names, picture
from streettools.shared.tables import Tables


class Axes:
    """Keeps what is drawn: lines by their seconds, and words."""

    def __init__(self):
        self.lines, self.words = [], []

    def axvline(self, at, **_):
        self.lines.append(at)

    def text(self, at, _, words, **__):
        self.words.append((at, words))


@pytest.mark.parametrize(
    ("cells", "marks"),
    [
        ([], [(15.0, "local zero: offset 0 s")]),
        ([["pattern", 1, 3, 20]], [(15.0, "local zero: offset 20 s")]),
        ([["sequence", 1, 1, "02010304"]], [(15.0, "local zero: offset 0 s")]),
        ([["unit", 8, 2]], [(15.0, "local zero"), (39.5, "end of green: offset 0 s")]),
        ([["split", 1, 6, 5, 0]], []),
    ],
)
def test_local_zero_and_the_moment_of_the_offset_are_marked(cells, marks):
    """The standard table has 15 s of left turns before phases 2 and 6, whose green ends 5.5 s before 45 s. If phase 2
    leads, phase 6 still starts at 15 s. A plan that coordinates one phase alone has no local zero."""
    tables, axes = Tables(), Axes()
    tables.put(cells)
    picture.draw_zero(axes, layout.Layout(tables, 1))
    assert axes.words == marks and axes.lines == [at for at, _ in marks]


def test_each_value_of_the_table_has_its_place_so_that_browsers_keep_the_columns(tmp_path):
    """No text has blanks in a row, which a browser draws as one. The minimum greens of the standard table, 5 s for
    left turns and 10 s, are at one height and from left to right."""
    path = tmp_path / "plan.svg"
    picture.write(Tables(), names.Intersection(), "Main", 1, str(path))
    texts = [it for it in ElementTree.parse(path).iter() if it.tag.endswith("}text") and it.text]
    assert not [it.text for it in texts if "  " in it.text]

    def place(it: ElementTree.Element) -> tuple[float, float]:
        """Returns how far down and to the right a text is."""
        x, y = re.findall(r"-?[0-9.]+", it.attrib["transform"])[:2] if "transform" in it.attrib else ("0", "0")
        return float(y), float(x)

    height = next(place(it)[0] for it in texts if it.text == "min green")
    row = sorted((place(it)[1], it.text) for it in texts if abs(place(it)[0] - height) < 1)
    assert [text for _, text in row] == ["min green", "5", "10", "5", "10", "5", "10", "5", "10"]
    assert len({x for x, _ in row}) == len(row)
