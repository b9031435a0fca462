"""mibs/ARTERIAL-FRONT-MIB: the objects of the front end for tools that read MIB files, made from its table."""

import textwrap
from collections.abc import Iterator

from ..shared.ber import Arcs
from ..shared.mib import OWN_MIB, objects
from ..shared.oids import SYSTEM
from ..street.ntcip.objects import WRITABLE
from .front_objects import GROUPS, NAMED, ROWS, Named, Row

IMPORTED = ("arterialProfile", "asc", "devices", "phase", "coord", "preempt", "preemptEntry", "ring",
            "sequenceRingNumber")  # fmt: skip
"""What it takes from the module of the profile."""
HEAD = """\
ARTERIAL-FRONT-MIB DEFINITIONS ::= BEGIN

-- The objects that a street answers as ntcip1202 beside those of ARTERIAL-PROFILE-MIB. The system group of MIB-2, which
-- it answers too, is in SNMPv2-MIB (RFC 3418). Names and numbers are those of NTCIP 1201 and 1202 as they are known
-- here; none was compared with a printed edition.
--
-- tools/reference makes this file.

IMPORTS
    MODULE-IDENTITY, OBJECT-TYPE, Integer32, Unsigned32, Counter32, Opaque
        FROM SNMPv2-SMI
    MODULE-COMPLIANCE, OBJECT-GROUP
        FROM SNMPv2-CONF
    {imported}
        FROM ARTERIAL-PROFILE-MIB;

arterialFront MODULE-IDENTITY
    LAST-UPDATED "202612010000Z"
    ORGANIZATION "The maintainers of arterial"
    CONTACT-INFO "The repository of arterial, which has this file."
    DESCRIPTION
        "What the front end of a simulated signal cabinet answers beside the proved profile."
    REVISION "202612010000Z"
    DESCRIPTION "First version."
    ::= {{ arterialProfile 6 }}
"""
TAIL = """\
frontCompliance MODULE-COMPLIANCE
    STATUS      current
    DESCRIPTION
        "The front end has all of these objects."
    MODULE      -- this module
        MANDATORY-GROUPS {{ frontGroup }}
    ::= {{ arterialFront 1 }}

frontGroup OBJECT-GROUP
    OBJECTS {{
{names}
    }}
    STATUS      current
    DESCRIPTION
        "All objects of the front end."
    ::= {{ arterialFront 2 }}

END
"""


def described(text: str) -> str:
    """Returns the text of a description in lines."""
    return textwrap.fill(f'"{text}"', 110, initial_indent=" " * 8, subsequent_indent=" " * 8)


def stated(name: str, syntax: str, access: str, text: str, place: str, more: str = "") -> str:
    """Returns the statement of an object."""
    return (
        f"{name} OBJECT-TYPE\n    SYNTAX      {syntax}\n    MAX-ACCESS  {access}\n    STATUS      current\n"
        f"    DESCRIPTION\n{described(text)}\n{more}    ::= {{ {place} }}\n"
    )


def columns_of(entry: Arcs) -> Iterator[Named]:
    """Yields the columns of a row."""
    yield from (it for arcs, it in NAMED.items() if arcs[:-1] == entry)


def row_of(entry: Arcs, row: Row, parent: str) -> Iterator[str]:
    """Yields the statements of a table and of its row."""
    kind = row.name[0].upper() + row.name[1:] + "Entry"
    yield stated(f"{row.name}Table", f"SEQUENCE OF {kind}", "not-accessible", row.text, f"{parent} {entry[-2]}")
    place = f"{row.name}Table 1"
    index = f"    INDEX       {{ {row.index} }}\n"
    yield stated(f"{row.name}Entry", kind, "not-accessible", row.text, place, index)
    kinds = (f"    {it.name:<36}{it.syntax.split(' (')[0].split(' {')[0]}" for it in columns_of(entry))
    yield f"{kind} ::= SEQUENCE {{\n" + ",\n".join(kinds) + "\n}\n"


def text() -> str:
    """Returns the file."""
    nodes = {arcs: name for name, arcs in objects(OWN_MIB).items()} | GROUPS
    parts = [HEAD.format(imported=", ".join(IMPORTED))]
    for arcs, name in GROUPS.items():
        parts.append(f"{name} OBJECT IDENTIFIER ::= {{ {nodes[arcs[:-1]]} {arcs[-1]} }}\n")
    shown = []
    for arcs, it in NAMED.items():
        if arcs[:-1] == SYSTEM:
            continue
        if arcs[:-1] in ROWS and arcs[:-1] not in nodes:
            row = ROWS[arcs[:-1]]
            parts += row_of(arcs[:-1], row, nodes[arcs[:-3]])
            nodes[arcs[:-1]] = f"{row.name}Entry"
        is_writable = any(name[: len(arcs)] == arcs for name in WRITABLE)
        access = "read-write" if is_writable else "read-only"
        parts.append(stated(it.name, it.syntax, access, it.text, f"{nodes[arcs[:-1]]} {arcs[-1]}"))
        shown.append(f"        {it.name}")
    return "\n".join([*parts, TAIL.format(names=",\n".join(shown))])
