"""Lets an interpreter of Python 3.9, such as Debian's pypy3, import modules that are written for Python 3.11.

What differs in the modules of the comparison is that annotations name alternatives as `int | None`, which Python 3.9
can't work out. Read as by `from __future__ import annotations` they are left alone.
"""

import __future__

import pathlib
import sys
from importlib.machinery import FileFinder, SourceFileLoader

TOP = pathlib.Path(__file__).resolve().parent.parent


class Loader(SourceFileLoader):
    """Reads a module without working out its annotations."""

    def source_to_code(self, data, path, *, _optimization=-1):
        """Returns the code of a module's text."""
        flags = __future__.annotations.compiler_flag
        return compile(data, path, "exec", flags=flags, dont_inherit=True, optimize=_optimization)


def finder(path):
    """Returns what finds the modules in a folder of this repository; ImportError for any other."""
    if TOP not in (pathlib.Path(path), *pathlib.Path(path).parents):
        raise ImportError
    return FileFinder.path_hook((Loader, [".py"]))(path)


def allow():
    """Lets this interpreter import the modules of this repository, where it is older than they are."""
    if sys.version_info < (3, 10):
        sys.path_hooks.insert(0, finder)
        sys.path_importer_cache.clear()
