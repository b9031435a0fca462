"""The examples of the docstrings and of docs/PYTHON.md do what they show."""

import doctest
import importlib
import pathlib

import pytest

from .conftest import TOP

MODULES = sorted(it.stem for it in (TOP / "tools/arterial").glob("*.py"))


@pytest.mark.parametrize("name", MODULES)
def test_the_examples_of_a_module_do_what_they_show(name):
    module = importlib.import_module("arterial" + ("" if name == "__init__" else f".{name}"))
    assert doctest.testmod(module).failed == 0


def test_each_name_of_the_package_has_a_docstring():
    import arterial

    assert [name for name in arterial.__all__ if not getattr(arterial, name).__doc__] == []


def test_the_examples_of_the_page_do_what_they_show(tmp_path, monkeypatch):
    """They run from the top of the checkout; what they write goes to a folder of the test."""
    page = TOP / "docs/PYTHON.md"
    monkeypatch.chdir(TOP)
    tests = doctest.DocTestParser().get_doctest(
        page.read_text(encoding="utf-8"), {"out": pathlib.Path(tmp_path)}, page.name, str(page), 0
    )
    assert len(tests.examples) > 20
    runner = doctest.DocTestRunner()
    runner.run(tests)
    assert runner.failures == 0
