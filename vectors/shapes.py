"""Hostile values of JSON of any size, and the places where one can stand in a scenario, in an object for `band` and in
a field file."""

import itertools
import re
from typing import NamedTuple

PIECE = 1 << 16
"""About how many bytes are made at a time: a text is never held as a whole."""


class Shape(NamedTuple):
    """A value: what it begins and ends with, and what stands between again and again, with this between two of them; in
    it `%d` is the number of the unit."""

    name: str
    begin: bytes
    unit: bytes
    between: bytes
    end: bytes

    @property
    def is_number(self):
        """Says whether it is one number of many digits."""
        return self.begin[:1].isdigit()

    @property
    def is_infinite(self):
        """Says whether it is a number that no float holds, which is no JSON wherever it stands."""
        return self.begin == b"1"

    def pieces(self, size):
        """Yields the pieces of the value, which has about so many bytes and no more, where one unit has no more."""
        yield self.begin
        left, number = size - len(self.begin) - len(self.end), 0
        while number == 0 or left >= longest:
            longest = len(self.between) + len(self.numbered(number + PIECE))
            taken = max(1, min(left, PIECE) // longest)
            if b"%d" in self.unit:
                piece = self.between.join(map(self.numbered, range(number, number + taken)))
            else:
                piece = self.between.join(itertools.repeat(self.unit, taken))
            yield self.between + piece if number else piece
            left, number = left - len(piece) - len(self.between), number + taken
        yield self.end

    def numbered(self, number):
        """Returns the unit of a number."""
        return self.unit % number if b"%d" in self.unit else self.unit


def listed(name, unit):
    """Returns the shape of a list of equal items."""
    return Shape(name, b"[", unit, b",", b"]")


def nested(opened, inmost, closed, deep):
    """Returns a value that is nested so deep."""
    return opened * deep + inmost + closed * deep


ROUND = b'"cabinet":1,"round":1'
DEEP = 100

SHAPES = (
    listed("numbers", b"1"),
    listed("empty lists", b"[]"),
    listed("empty objects", b"{}"),
    listed("lists of a number", b"[1]"),
    listed("lists of a text", b'["a"]'),
    listed("lists of five", b"[1,1,1,1,1]"),
    listed("objects of one name", b'{"a":1}'),
    listed("objects of five names", b'{"a":1,"b":1,"c":1,"d":1,"e":1}'),
    listed("objects of a round", b"{" + ROUND + b"}"),
    listed("objects of a round with more", b"{" + ROUND + b',"a":0,"b":0,"c":0}'),
    listed("objects of a round with lists", b"{" + ROUND + b',"cells":[[1],[1],[1],[1],[1],[1],[1],[1]]}'),
    listed("inputs", b"{" + ROUND + b',"veh":1,"on":true}'),
    listed("inputs with a name again", b'{"round":1.5,"veh":[],' + ROUND + b',"veh":1,"on":true}'),
    listed("pulses", b"{" + ROUND + b',"detector":1,"on":true}'),
    listed("sections of steps", b'{"steps":[' + b",".join([b'{"up":1}'] * 100) + b"]}"),
    listed("cells", b'["phase",2,2,5]'),
    listed("deep lists", nested(b"[", b"", b"]", DEEP)),
    listed("deep objects", nested(b'{"a":', b"1", b"}", DEEP)),
    listed("texts", b'"a"'),
    listed("floats", b"1e-7"),
    Shape("an object of many names", b"{", b'"%d":1', b",", b"}"),
    Shape("an object of one name again and again", b"{", b'"a":1', b",", b"}"),
    Shape("an object of lists at many names", b"{", b'"%d":[1]', b",", b"}"),
    Shape("a long name", b'{"', b"a", b"", b'":1}'),
    Shape("a long name of escapes", b'{"', b"\\u00e9", b"", b'":1}'),
    Shape("a long text", b'"', b"a", b"", b'"'),
    Shape("a long text of escapes", b'"', b"\\u0001", b"", b'"'),
    Shape("a long number", b"1", b"0", b"", b""),
    Shape("a long fraction", b"0.", b"1", b"", b""),
)


class Place(NamedTuple):
    """A place in a text: its name, what stands before and behind it, and whether what stands there counts for nothing,
    since its name comes again."""

    name: str
    before: bytes
    behind: bytes
    overridden: bool

    def inside(self, before, behind):
        """Returns the same place in a text around this one."""
        return self._replace(before=before + self.before, behind=self.behind + behind)


def members(values):
    """Returns the members of an object, without its braces."""
    return b",".join(b'"%s":%s' % (name.encode(), value) for name, value in values.items())


def placed(values, name, inner):
    """Yields the place inside the member of a name, where it counts and where the name comes again behind it; `@` marks
    it in the member."""
    before, behind = inner.split(b"@")
    rest = {other: value for other, value in values.items() if other != name}
    opened = b'{"%s":%s' % (name.encode(), before)
    what = inner.decode().replace('"', "") if inner != b"@" else "it"
    last = re.search(rb'("\w+":)$', before)
    again = bool(last) and last[1] in behind
    yield Place(f"{name}: {what}", opened, behind + b"," + members(rest) + b"}", again)
    if name in values:
        yield Place(f"{name}: {what}, again", opened, behind + b"," + members(values) + b"}", True)


def places_in(values, inner):
    """Yields the places of an object: the whole, each of its names, an unknown one, and further places inside its
    names."""
    yield Place("the whole", b"", b"", False)
    for name in (*values, "unknown"):
        yield from placed(values, name, b"@")
    for name, texts in inner.items():
        for text in texts:
            yield from placed(values, name, text)


SCENARIO = {
    "version": b"1", "rounds": b"2", "ticks": b"10", "community": b'"public"', "cabinets": b"[{}]", "master": b"{}",
    "inputs": b"[]", "loads": b"[]", "priority": b"[]", "frames": b"[]", "faults": b"[]",
}  # fmt: skip
EVENT = (b"[@]", b'[{"round":@,"cabinet":1}]', b"[{" + ROUND + b',"unknown":@}]')
IN_SCENARIO = {
    "cabinets": (
        b"[@]",
        b'[{"cells":@}]',
        b'[{"cells":[@]}]',
        b'[{"cells":[["phase",@,2,5]]}]',
        b'[{"clock":@}]',
        b'[{"unknown":@}]',
        b'[{"cells":@,"cells":[]}]',
    ),
    "master": (
        b'{"schedule":@}', b'{"schedule":[@]}', b'{"clock":@}', b'{"unknown":@}', b'{"schedule":@,"schedule":[]}'
    ),
    "inputs": EVENT,
    "loads": (*EVENT, b"[{" + ROUND + b',"cells":@}]', b"[{" + ROUND + b',"cells":[@]}]'),
    "priority": EVENT,
    "frames": (*EVENT, b"[{" + ROUND + b',"stream":"poll","hex":@}]'),
    "faults": EVENT,
}  # fmt: skip

STREET = {"scenario": b"{" + members(SCENARIO) + b"}", "section": b"1", "pattern": b"1", "travel": b"[]"}
IN_STREET = {"travel": (b"[@]",)}

FIELD = {"scenario": STREET["scenario"], "bank": b"[]", "pulses": b"[]"}
IN_FIELD = {
    "bank": (b"[@]", b'[{"cabinet":1,"phase":@}]', b'[{"unknown":@}]'),
    "pulses": (b"[@]", b'[{"round":@}]', b'[{"unknown":@}]'),
    "respond": (
        b"@", b'{"sections":@}', b'{"sections":[@]}', b'{"sections":[{"steps":@}]}', b'{"sections":[{"steps":[@]}]}'
    ),
}

BEHIND = members({name: value for name, value in SCENARIO.items() if name != "inputs"})
OF_SCENARIO = (
    *places_in(SCENARIO, IN_SCENARIO),
    Place("inputs: it, behind rounds at fault", b'{"rounds":[1.5],"inputs":', b"," + BEHIND + b"}", False),
)


def around(values, inner):
    """Yields the places of an object that has a scenario: its own, and those of the scenario."""
    yield from places_in(values, inner)
    rest = {name: value for name, value in values.items() if name != "scenario"}
    for place in OF_SCENARIO[1:]:
        yield place.inside(b'{"scenario":', b"," + members(rest) + b"}")._replace(name=f"scenario: {place.name}")


OF_STREET = tuple(around(STREET, IN_STREET))
OF_FIELD = tuple(around(FIELD, IN_FIELD))
