"""The names of objects by the MIBs in mibs/ (of the profile, of the front end), and of MIB-2's system group."""

import functools
import pathlib
import re

from .ber import Arcs
from .oids import ENTERPRISES, SYSTEM

HERE = pathlib.Path(__file__).resolve().parents[2]
"""The folder that has the package streettools."""
OWN_MIB, FRONT_MIB = "ARTERIAL-PROFILE-MIB", "ARTERIAL-FRONT-MIB"
FOLDERS = [
    HERE / "arterial/data", HERE.parent / "mibs", *(it / "share/snmp/mibs" for it in (HERE.parent, HERE.parent.parent)),
]  # fmt: skip
"""Where the MIBs may be: in a wheel, in the checkout, or in an installation."""
MIB2 = ("sysDescr", "sysObjectID", "sysUpTime", "sysContact", "sysName", "sysLocation", "sysServices")
"""The objects of the system group, from 1 on."""
ROOTS = {"enterprises": ENTERPRISES}
KIND = r"(?:OBJECT-TYPE|OBJECT IDENTIFIER|MODULE-IDENTITY)"
ASSIGNED = re.compile(r"^([a-z]\w*)\s+" + KIND + r"\b.*?::= \{ (\w+) (\d+) \}", re.M | re.S)


def text_of(name: str) -> str:
    """Returns a MIB without its comments and texts; nothing where it is missing."""
    file = next((it / name for it in FOLDERS if (it / name).is_file()), None)
    return re.sub(r'"[^"]*"|--.*', "", file.read_text(encoding="utf-8")) if file else ""


@functools.cache
def objects(*mibs: str) -> dict[str, Arcs]:
    """Returns the arcs of objects by their names, of all MIBs or of those that are named; none where they are
    missing."""
    text = "\n".join(map(text_of, mibs or (OWN_MIB, FRONT_MIB)))
    told = {name: (parent, int(number)) for name, parent, number in ASSIGNED.findall(text)}
    known: dict[str, Arcs] = dict(ROOTS)

    def arcs(name: str) -> Arcs | None:
        if name not in known and name in told:
            parent = arcs(told[name][0])
            if parent is not None:
                known[name] = (*parent, told[name][1])
        return known.get(name)

    return {name: found for name in told if (found := arcs(name)) is not None}


@functools.cache
def names() -> dict[Arcs, str]:
    """Returns the names of objects by their arcs."""
    system = {(*SYSTEM, at): name for at, name in enumerate(MIB2, 1)}
    return system | {found: name for name, found in objects().items()}
