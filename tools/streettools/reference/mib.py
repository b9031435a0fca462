"""docs/OBJECTS.md: every object of a cabinet and of the front end with its full identifier, made from the MIB and from
the table of the front end."""

import pathlib
import re
from collections.abc import Iterator
from dataclasses import dataclass

from ..shared.ber import Arcs
from ..shared.mib import names
from ..shared.oids import ENTRIES, SEQUENCE_ENTRY, UNIT, dotted
from ..street.ntcip.objects import OBJECTS, WRITABLE
from .front_objects import NAMED
from .markdown import escaped, table

MIB = "mibs/ARTERIAL-PROFILE-MIB"
SECTION = re.compile(r"^-- -{9,} (.*)$", re.M)
OBJECT = re.compile(
    r"^(?P<name>[a-z]\w*) OBJECT-TYPE\s+SYNTAX +(?P<syntax>.*?)\s+(?:UNITS +\"(?P<units>[^\"]*)\"\s+)?"
    r"MAX-ACCESS +(?P<access>[\w-]+).*?DESCRIPTION\s+\"(?P<text>[^\"]*)\"(?:\s+INDEX +\{ (?P<index>[^}]*) \})?",
    re.M | re.S,
)
WRITTEN = "Written only"
HEAD = """\
# Objects of a cabinet

For developers of management software: every object that a live cabinet has, with its full identifier. This page is made
by `tools/reference --write` from `mibs/ARTERIAL-PROFILE-MIB` and from the table of the front end; a test compares it.
[SNMP-CONFORMANCE.md](SNMP-CONFORMANCE.md) lists the answer to every kind of message.

An object that isn't in a table has one instance, whose identifier has `.0` after that of the object. In a table, the
indexes of the row follow the identifier of the column. The ten states of priority requests are their own instances.

| Access | Meaning |
|---|---|
| read | Get and GetNext answer it; a Set has status 2 (noSuchName) |
| read, Set | also changed by a plain Set |
| read, download | also changed by a part of a download, and by nothing else |
| Set | can't be read: a Get has status 2, and a walk skips it |

**Which identifiers are certain.** Those under 1.3.6.1.4.1.32473.1 are arterial's own, also all objects of a
download: a real controller doesn't have them. It loads tables by a transaction of NTCIP 1201
(`dbCreateTransaction`), which only the front end has. The objects under 1.3.6.1.4.1.1206.4.2.1 are those of NTCIP
1202, and those under 1.3.6.1.4.1.1206.4.2.6 those of NTCIP 1201, from our knowledge: no name and no number was
compared with a printed edition. A real controller may have other objects, ranges and rules.
"""
FRONT = """\
## The front end

`./arterial street --as ntcip1202` also answers these objects. They are not proved. The column "Source" says where
the name and the number come from; the last column says what we doubt in particular. `mibs/ARTERIAL-FRONT-MIB` has
them for tools that read MIB files, except those of RFC 3418.
"""


@dataclass
class Object:
    """An object of the MIB, without its table."""

    name: str
    arcs: Arcs
    syntax: str
    access: str
    text: str
    index: str
    is_row: bool


def joined(text: str | None) -> str:
    """Returns a text of the MIB in one line."""
    return " ".join((text or "").split())


def access_of(arcs: Arcs, stated: str, text: str) -> str:
    """Returns by what an object is read and changed."""
    if text.startswith(WRITTEN):
        return "Set"
    if stated != "read-write":
        return "read"
    cells = (*ENTRIES.values(), SEQUENCE_ENTRY)
    is_cell = arcs + (0,) in UNIT.values() or any(arcs[: len(it)] == it for it in cells)
    return "read, download" if is_cell else "read, Set"


def objects(text: str) -> Iterator[Object]:
    """Yields the objects of a part of the MIB."""
    arcs = {name: found for found, name in names().items()}
    for it in OBJECT.finditer(text):
        units, said = it["units"], joined(it["text"])
        syntax = joined(it["syntax"]).replace("Integer32", "INTEGER") + (f", {units}" if units else "")
        place = arcs[it["name"]]
        is_row = it["access"] == "not-accessible"
        yield Object(it["name"], place, syntax, access_of(place, it["access"], said), said, joined(it["index"]), is_row)


def sections(text: str) -> Iterator[tuple[str, str]]:
    """Yields the titles of the MIB's sections with their texts."""
    titles = list(SECTION.finditer(text))
    for it, after in zip(titles, titles[1:], strict=False):
        yield it[1], text[it.end() : after.start()]


def profile(text: str) -> Iterator[str]:
    """Yields the parts about the proved profile."""
    yield "## The proved profile\n"
    for title, part in sections(text):
        yield f"### {title[0].upper()}{title[1:]}\n"
        rows: list[tuple[str, ...]] = []
        for it in objects(part):
            if it.is_row and not it.index:
                continue
            shown = f"`{it.name}`, a row; index: {it.index}" if it.index else f"`{it.name}`"
            access, syntax = ("", "") if it.index else (it.access, it.syntax)
            rows.append((shown, dotted(it.arcs), access, escaped(syntax), escaped(it.text)))
        yield table(("Object", "Identifier", "Access", "Values", "Meaning"), rows)


def instances(base: Arcs) -> str:
    """Returns the indexes of an object's instances in words."""
    found = [arcs for arcs in OBJECTS.fixed_names() if arcs[: len(base)] == base]
    if not found:
        return "c.n, of class c and row n"
    last = sorted(arcs[-1] for arcs in found)
    before = "".join(f"{it}." for it in found[0][len(base) : -1])
    return before + (str(last[0]) if len(last) == 1 else f"n, n from {last[0]} to {last[-1]}")


def front() -> Iterator[str]:
    """Yields the part about the front end: each object once, with the range of its last arc."""
    yield FRONT
    rows = []
    for base, it in NAMED.items():
        access = "read, Set" if any(arcs[: len(base)] == base for arcs in WRITABLE) else "read"
        syntax = it.syntax.replace("Integer32", "INTEGER")
        shown = (f"`{it.name}`", f"{dotted(base)}.{instances(base)}", access, escaped(syntax), escaped(it.text))
        rows.append((*shown, it.source.value, it.doubt))
    yield table(("Object", "Instance", "Access", "Values", "Meaning", "Source", "Doubts"), rows)


def page(top: pathlib.Path) -> str:
    """Returns the page."""
    text = (top / MIB).read_text(encoding="utf-8")
    return "\n".join([HEAD, *profile(text), *front()])
