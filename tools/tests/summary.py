"""Prints the last line of ./test from pytest's reports: how many suites ran, how many tests were tried again, and how
many were skipped.

    summary.py [--skip-missing] SUITES AGAIN.xml FIRST.xml     (only FIRST.xml if no test failed)

Exit status: 1 if a test was skipped and --skip-missing isn't given.
"""

import argparse
import pathlib
import sys
from xml.etree import ElementTree


def counts(report: pathlib.Path) -> tuple[int, int]:
    """Returns how many tests a report of pytest has, and how many of them were skipped."""
    suites = list(ElementTree.parse(report).getroot().iter("testsuite"))
    return sum(int(it.get("tests", 0)) for it in suites), sum(int(it.get("skipped", 0)) for it in suites)


def summary(suites: int, reports: list[pathlib.Path]) -> tuple[str, int]:
    """Returns the line, and how many tests were skipped in the first run."""
    first = next(it for it in reports if it.stem == "first")
    again = sum(counts(it)[0] for it in reports if it.stem == "again")
    tests, skipped = counts(first)
    return f"{suites} suites run, {tests} tests in Python, {again} tried again, {skipped} skipped", skipped


def main() -> int:
    """Prints the line."""
    words = argparse.ArgumentParser(description=__doc__, formatter_class=argparse.RawDescriptionHelpFormatter)
    words.add_argument("--skip-missing", action="store_true", help="accept skipped tests")
    words.add_argument("suites", type=int, help="how many suites ran")
    words.add_argument("reports", type=pathlib.Path, nargs="+", help="pytest's reports, named first.xml and again.xml")
    given = words.parse_args()
    line, skipped = summary(given.suites, given.reports)
    print(line)
    if skipped and not given.skip_missing:
        print("skipped tests are failures: install what is missing (tools/setup), or call ./test --skip-missing")
        return 1
    return 0


if __name__ == "__main__":
    sys.exit(main())
