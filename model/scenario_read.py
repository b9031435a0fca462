"""How a scenario is read from its text; its first fault if it isn't one.

docs/SCENARIO.md, "Names" and "What is refused, and how".
"""

from collections import Counter
from typing import Any

from model.json_text import NotJson, compact, read_json
from model.orders import Drift
from model.priority import Request
from model.rules import first_broken
from model.scenario import (
    Button,
    CabinetSetup,
    Detector,
    Entry,
    Fault,
    FrameItem,
    Harm,
    Input,
    Item,
    MasterSetup,
    PreemptInput,
    Scenario,
    Stream,
    Way,
)
from model.shapes import (
    Named,
    Refused,
    alternatives,
    below,
    cell,
    field_fault,
    fields,
    flag,
    limit_fault,
    list_of,
    names_known,
    octets,
    told,
    visible,
    whole,
    word,
    zero_or,
)
from model.tables import BASES
from model.words import DAY

MOST_BYTES, MOST_TICKS, MOST_LOADS = 16_777_216, 55_296_000, 100


def cabinet_shape(version: int) -> Any:
    """Returns the shape of a cabinet in a version of scenarios."""
    drifts = zero_or(12_000, 864_000)
    names = [
        Named("base", word(BASES), BASES["std8"]),
        Named("cells", list_of(cell, 0, 4096), []),
        Named("pattern", whole(0, 255), 0),
        Named("clock", whole(0, DAY - 1), 0),
        Named("section", whole(1, 8), 1),
        *([Named("gain", drifts, 0), Named("lose", drifts, 0)] if version == 2 else []),
    ]

    def shape(value: Any, path: str) -> CabinetSetup:
        says = fields(value, path, names)
        drift = Drift(says.get("gain", 0), says.get("lose", 0))
        if drift.gain and drift.lose:
            raise field_fault(path)
        return CabinetSetup(
            says["base"].with_cells(says["cells"]), says["pattern"], says["clock"], says["section"], drift
        )

    return shape


ENTRY = [Named("second", whole(0, 86_399)), Named("section", whole(1, 8)), Named("pattern", whole(0, 255))]
MASTER = [
    Named("clock", whole(0, DAY - 1), 0),
    *(Named(name, whole(0, 86_400), 0) for name in ("poll_every", "clock_every", "pattern_every")),
    Named("retries", whole(1, 10), 3),
    Named("schedule", list_of(lambda value, path: Entry(**fields(value, path, ENTRY)), 0, 1000), []),
]
NO_MASTER = MasterSetup(0, 0, 0, 0, 3, [])
STREAMS = {it.name.lower(): it for it in Stream}
INPUTS = {
    "veh": [Named("veh", whole(1, 16)), Named("on", flag)],
    "ped": [Named("ped", whole(1, 16))],
    "preempt": [Named("preempt", whole(1, 8)), Named("on", flag)],
}
REQUESTS = {
    "cancel": [Named("cancel", whole(1, 10))],
    "number": [
        *(Named(name, whole(1, 10)) for name in ("number", "class", "level")),
        Named("phase", whole(1, 16)),
        Named("arrival", whole(0, 65_535)),
        Named("departure", whole(0, 65_535)),
    ],
}
LOAD = [Named("cells", list_of(cell, 1, 768))]
FRAME = [Named("stream", word(STREAMS)), Named("hex", octets(1472))]
FAULT = [
    Named("stream", word(STREAMS)),
    Named("way", word({it.value: it for it in Way})),
    Named("index", whole(0, 65_535), 0),
    Named("kind", word({it.value: it for it in Harm})),
    Named("by", whole(0, 86_400), 1),
    Named("octet", whole(1, 255), 1),
]


class Items:
    """The shapes of the items of a scenario, which have an existing round and cabinet."""

    def __init__(self, rounds: int, cabinets: int) -> None:
        self.common = [Named("round", whole(1, rounds)), Named("cabinet", whole(1, cabinets))]
        self.loads: Counter[int] = Counter()

    def item(self, says: dict[str, Any], path: str, what: Any) -> Item:
        """Returns an item by what its names say; its place is at the end of its path."""
        return Item(says["round"], says["cabinet"], int(path.rsplit("[", 1)[1][:-1]), what)

    def input(self, value: Any, path: str) -> Item:
        """The shape of an input."""
        says = alternatives(value, path, self.common, INPUTS)
        if "veh" in says:
            what: Input = Detector(says["veh"], says["on"])
        else:
            what = Button(says["ped"]) if "ped" in says else PreemptInput(says["preempt"], says["on"])
        return self.item(says, path, what)

    def load(self, value: Any, path: str) -> Item:
        """The shape of a download."""
        says = fields(value, path, self.common + LOAD)
        self.loads[says["cabinet"]] += 1
        if self.loads[says["cabinet"]] > MOST_LOADS:
            raise limit_fault(path)
        return self.item(says, path, says["cells"])

    def request(self, value: Any, path: str) -> Item:
        """The shape of a priority request or its cancel."""
        says = alternatives(value, path, self.common, REQUESTS)
        if "cancel" in says:
            return self.item(says, path, says["cancel"])
        if says["arrival"] > says["departure"]:
            raise limit_fault(f"{path}.departure")
        numbers = (says[name] for name in ("number", "class", "level", "phase", "arrival", "departure"))
        return self.item(says, path, Request(*numbers))

    def frame(self, value: Any, path: str) -> Item:
        """The shape of a frame."""
        says = fields(value, path, self.common + FRAME)
        return self.item(says, path, FrameItem(says["stream"], says["hex"]))

    def fault(self, value: Any, path: str) -> Item:
        """The shape of a fault of the line."""
        says = fields(value, path, self.common + FAULT)
        fault = Fault(says["stream"], says["way"], says["index"], says["kind"], says["by"], says["octet"])
        return self.item(says, path, fault)


TOP = [
    "version",
    "rounds",
    "ticks",
    "community",
    "cabinets",
    "master",
    "inputs",
    "loads",
    "priority",
    "frames",
    "faults",
]


def content(value: Any, path: str = ".") -> Scenario:
    """Returns the scenario that a value is; raises its first fault if it isn't one."""
    known = names_known(value, path, TOP)

    def tell(name: str, shape: Any, *default: Any) -> Any:
        return told(known, path, Named(name, shape, *default))

    version = tell("version", whole(1, 2))
    rounds, ticks = tell("rounds", whole(1, 86_400)), tell("ticks", whole(1, 600))
    community = tell("community", visible(1, 32), b"public")
    cabinets = tell("cabinets", list_of(cabinet_shape(version), 1, 64))
    master = tell("master", lambda it, at: MasterSetup(**fields(it, at, MASTER)), NO_MASTER)
    items = Items(rounds, len(cabinets))
    inputs = tell("inputs", list_of(items.input, 0, 1_000_000), [])
    loads = tell("loads", list_of(items.load, 0, MOST_BYTES), [])
    priority = tell("priority", list_of(items.request, 0, 100_000), [])
    frames = tell("frames", list_of(items.frame, 0, 100_000), [])
    faults = tell("faults", list_of(items.fault, 0, 100_000), [])
    if len(cabinets) * rounds * ticks > MOST_TICKS:
        raise limit_fault(below(path, "rounds"))
    for number, it in enumerate(cabinets, 1):
        if broken := first_broken(it.tables, it.tables, False):
            raise Refused(f"cabinet {number} breaks rule {broken.rule} at row {broken.row}")
    return Scenario(rounds, ticks, community, cabinets, master, inputs, loads, priority, frames, faults, compact(value))


def read_scenario(data: bytes) -> Scenario:
    """Returns the scenario that bytes are; else its first fault is raised."""
    if len(data) > MOST_BYTES:
        raise limit_fault(".")
    return content(read_value(data))


def read_value(data: bytes) -> Any:
    """Returns the value of a JSON text; raises the fault if it isn't valid JSON."""
    try:
        return read_json(data)
    except NotJson:
        raise Refused("not JSON") from None
