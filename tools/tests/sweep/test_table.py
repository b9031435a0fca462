"""The table in Parquet, written by a stand-in for pyarrow, which Debian doesn't package."""

import sys
import types

import pytest
from streettools.sweep import table

NUMBER, TEXT = "number", "text"


class Writer:
    """A stand-in for pyarrow's writer: it keeps the tables that it was given."""

    tables: list = []

    def __init__(self, name, schema):
        self.schema = schema

    def __enter__(self):
        return self

    def __exit__(self, *fault):
        pass

    def write_table(self, made):
        """Keeps a table, by columns."""
        self.tables.append(made)


def made(columns, schema):
    """Returns the columns of a table; as pyarrow it takes no text as a number, and no number as a text."""
    for (name, kind), column in zip(schema, columns, strict=True):
        for value in column:
            if value is not None and isinstance(value, str) != (kind == TEXT):
                raise TypeError(f"{value!r} in the column {name} of kind {kind}")
    return [list(it) for it in columns]


@pytest.fixture
def tables(monkeypatch):
    """The tables that are written by the stand-in."""
    pyarrow, parquet = types.ModuleType("pyarrow"), types.ModuleType("pyarrow.parquet")
    pyarrow.float64, pyarrow.string, pyarrow.schema, pyarrow.table = lambda: NUMBER, lambda: TEXT, list, made
    parquet.ParquetWriter, pyarrow.parquet = Writer, parquet
    monkeypatch.setitem(sys.modules, "pyarrow", pyarrow)
    monkeypatch.setitem(sys.modules, "pyarrow.parquet", parquet)
    monkeypatch.setattr(Writer, "tables", [])
    return Writer.tables


def test_a_column_that_becomes_text_after_many_numbers_is_text(tables, tmp_path):
    """The first 10,000 lines have numbers, the next one has a word: all of the column is text, in each part."""
    lines = [[number, number / 2] for number in range(table.CHUNK)] + [["add only", None], [7, 0.5]]
    table.write(tmp_path / "out.parquet", ["mode", "wait"], lines)
    first, second = tables
    assert first[0][:3] == ["0", "1", "2"] and first[1][:3] == [0, 0.5, 1]
    assert second == [["add only", "7"], [None, 0.5]]


def test_a_column_of_truths_or_of_nothing_is_text(tables, tmp_path):
    table.write(tmp_path / "out.parquet", ["met", "none", "count"], [[True, None, 1], [None, None, None]])
    assert tables == [[["true", None], [None, None], [1, None]]]
