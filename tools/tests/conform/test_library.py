"""The library on a street as the device: all of its tests pass, and each mutant is found by the test that names it."""

import pytest
from streettools.conform import scripts

from .conftest import LANES, Device, at_once, reported
from .mutants_named import NAMED

TESTS = scripts.library()
NAMES = [it.name for it in TESTS]


@pytest.fixture(scope="module")
def results(tmp_path_factory):
    """The results of all tests by name, on several devices at once."""
    shares = [[it for it in TESTS[lane::LANES]] for lane in range(LANES)]

    def run(share):
        with Device() as device:
            only = [word for it in share for word in ("--only", it.name)]
            return reported(device.where, *only, folder=tmp_path_factory.mktemp("report"))

    found = {}
    for report, status in at_once(run, shares):
        assert status == 0 or any(it["outcome"] == "differ" for it in report["tests"])
        found |= {it["name"]: it for it in report["tests"]}
    return found


def test_the_library_has_forty_tests_with_different_names():
    assert len(set(NAMES)) == len(NAMES) == 40


@pytest.mark.parametrize("name", NAMES)
def test_the_street_passes(results, name):
    it = results[name]
    assert (it["outcome"], it["words"], it["unsafe"]) == ("pass", [], [])


@pytest.fixture(scope="module")
def found(tmp_path_factory):
    """The result of the test that names each mutant, with the exit status."""

    def run(mutant):
        with Device(mutant=mutant) as device:
            report, status = reported(device.where, "--only", NAMED[mutant][0], folder=tmp_path_factory.mktemp("m"))
            return next(it for it in report["tests"] if it["name"] == NAMED[mutant][0]), status

    return dict(zip(NAMED, at_once(run, NAMED)))


@pytest.mark.parametrize("mutant", NAMED)
def test_a_mutant_is_found_and_the_report_says_what_is_wrong(found, mutant):
    result, status = found[mutant]
    assert (result["outcome"], status) == ("differ", 2)
    assert NAMED[mutant][1] in "\n".join(result["words"] + result["unsafe"])
