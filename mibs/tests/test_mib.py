"""The module is clean, and has a name and a syntax for each instance that a cabinet answers for."""

import itertools
import os
import pathlib
import re
import shutil
import subprocess
import sys

import pytest

MIBS = pathlib.Path(__file__).resolve().parent.parent
MODULE = MIBS / "ARTERIAL-PROFILE-MIB"
PROGRAM = pathlib.Path(os.environ.get("ARTERIAL_PROGRAM", MIBS.parent / "crates/arterial/out/arterial"))
ASC = "1.3.6.1.4.1.1206.4.2.1"
OWN = "1.3.6.1.4.1.32473.1"


def up_to(most, least=1):
    """Returns the numbers from the least to the most."""
    return range(least, most + 1)


# the arcs before the indices, and the ranges of these: what a walk over a cabinet meets, in its order
READABLE = [
    (f"{ASC}.1.2.1", [up_to(23), up_to(16)]),
    (f"{ASC}.1.4.1", [up_to(10), up_to(2)]),
    (f"{ASC}.4.2", [[0]]),
    (f"{ASC}.4.7.1", [up_to(5), up_to(48)]),
    (f"{ASC}.4.9.1", [up_to(5), up_to(32), up_to(16)]),
    (f"{ASC}.4.10", [[0]]),
    (f"{ASC}.4.14", [[0]]),
    (f"{ASC}.6.2.1", [[1, *up_to(15, 4)], up_to(8)]),
    (f"{ASC}.7.3.1", [up_to(3), up_to(16), up_to(2)]),
    (f"{OWN}.1", [[1], [0]]),
    (f"{OWN}.1", [up_to(10, 7), [0]]),
    (f"{OWN}.2", [up_to(4), [0]]),
    (f"{OWN}.3", [up_to(7), [0]]),
    (f"{OWN}.4.3.1", [up_to(10)]),
]
WRITTEN_ONLY = [(f"{OWN}.1", [up_to(6, 2), [0]]), (f"{OWN}.4", [up_to(2), [0]])]


def instances(rows):
    """Returns the numeric names of all instances of some rows."""
    return [".".join([arcs, *map(str, indices)]) for arcs, ranges in rows for indices in itertools.product(*ranges)]


def asked(tool, *words, errors=subprocess.STDOUT, **more):
    """Returns what a tool prints, on both of its outputs together where not told otherwise; the test is skipped where there is
    no such tool."""
    if shutil.which(tool) is None:
        pytest.skip(f"no {tool} here")
    ran = subprocess.run([tool, *words], stdout=subprocess.PIPE, stderr=errors, text=True, check=False, **more)
    return ran.stdout


def translated(names):
    """Returns the textual name of each instance. On its first run the tool says on standard error what folders it made."""
    path = f"{MIBS}:{MIBS / 'base'}"
    words = ["-M", path, "-m", "ARTERIAL-PROFILE-MIB", "-Os", *names]
    return asked("snmptranslate", *words, errors=subprocess.DEVNULL).split()


def syntaxes():
    """Returns for each object of the module its syntax: the kind of its value, and a test of the value as it is printed."""
    text = MODULE.read_text(encoding="ascii")
    return dict(map(syntax, re.findall(r"^(\w+) OBJECT-TYPE\n    SYNTAX      ((?:INTEGER|Integer32|OCTET STRING) .*)\n", text, re.M)))


def syntax(found):
    """Returns an object's name, with the kind of its value and a test of it."""
    name, words = found
    if named := re.fullmatch(r"INTEGER \{(.*)\}", words):
        values = set(re.findall(r"\((\d+)\)", named[1]))
        return name, ("INTEGER", lambda value: value in values)
    kind, least, most = re.fullmatch(r"(Integer32 \(|OCTET STRING \(SIZE \()(\d+)(?:\.\.(\d+))?\)+", words).groups()
    bounds = range(int(least), int(most or least) + 1)
    if kind.startswith("Integer32"):
        return name, ("INTEGER", lambda value: int(value) in bounds)
    return name, ("OCTET STRING", lambda value: len(value) // 2 in bounds)


@pytest.fixture(scope="module")
def walk():
    """Returns what a walk over a cabinet meets: name, kind and value of each instance, in order."""
    if not PROGRAM.is_file():
        pytest.skip(f"no program at {PROGRAM}")
    lines = subprocess.run([MIBS / "objects", "--program", PROGRAM], capture_output=True, text=True, check=True).stdout.splitlines()
    return [re.fullmatch(r"([0-9.]+) (INTEGER|OCTET STRING) (.*)", line).groups() for line in lines]


def test_lints_without_a_warning():
    assert asked("smilint", "-l", "3", str(MODULE), env={"SMIPATH": str(MIBS / "base"), "PATH": "/usr/bin:/bin"}) == ""


def test_names_each_readable_instance():
    names = instances(READABLE)
    assert len(names) == 3417
    objects = set(re.findall(r"^(\w+) OBJECT-TYPE\n    SYNTAX", MODULE.read_text(encoding="ascii"), re.M))
    texts = translated(names)
    assert len(set(texts)) == len(names)
    assert {text.split(".")[0] for text in texts} <= objects


def test_leaves_no_object_unread_but_those_written_only():
    text = MODULE.read_text(encoding="ascii")
    leaves = set(re.findall(r"^(\w+) OBJECT-TYPE\n    SYNTAX .*\n(?:    UNITS .*\n)?    MAX-ACCESS  read", text, re.M))
    written = {text.split(".")[0] for text in translated(instances(WRITTEN_ONLY))}
    read = {text.split(".")[0] for text in translated(instances(READABLE))}
    assert leaves == read | written
    assert not read & written


def test_a_walk_meets_what_is_readable_and_nothing_else(walk):
    assert [name for name, _, _ in walk] == instances(READABLE)


def test_each_instance_of_a_walk_has_a_name_and_a_syntax(walk):
    known = syntaxes()
    texts = translated([name for name, _, _ in walk])
    assert len(set(texts)) == len(walk)
    for text, (_, kind, value) in zip(texts, walk, strict=True):
        due, fits = known[text.split(".")[0]]
        assert kind == due and fits(value), (text, kind, value)


def test_each_readable_object_is_met_by_a_walk(walk):
    written = {text.split(".")[0] for text in translated(instances(WRITTEN_ONLY))}
    assert {text.split(".")[0] for text in translated([name for name, _, _ in walk])} == set(syntaxes()) - written


def test_the_module_of_the_front_lints_without_a_warning():
    path = {"SMIPATH": f"{MIBS / 'base'}:{MIBS}", "PATH": "/usr/bin:/bin"}
    assert asked("smilint", "-l", "3", str(MIBS / "ARTERIAL-FRONT-MIB"), env=path) == ""


def test_net_snmp_has_a_name_for_each_object_of_the_front():
    """Those of MIB-2 are in SNMPv2-MIB, which Debian doesn't bring."""
    sys.path.insert(0, str(MIBS.parent / "tools"))
    from streettools.street.ntcip.objects import OBJECTS

    fixed = [*OBJECTS.fixed_names()]
    rows = [type_ + (1, 1) for type_ in OBJECTS.types if not any(it[:-1] == type_ for it in fixed)]
    own = [".".join(map(str, arcs)) for arcs in fixed + rows if arcs[:7] != (1, 3, 6, 1, 2, 1, 1)]
    words = ["-M", f"{MIBS}:{MIBS / 'base'}", "-m", "ARTERIAL-FRONT-MIB", "-Os", *own]
    texts = asked("snmptranslate", *words, errors=subprocess.DEVNULL).split()
    assert len(set(texts)) == len(own) and [it for it in texts if not re.fullmatch(r"[a-z]\w+(\.\d+)+", it)] == []
