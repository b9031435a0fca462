"""Messages that no manager should send: damaged, cut, of another community, not messages at all."""

import json
import pathlib
import random

from ..cabinet.messages import GET, message
from ..shared.oids import CONTROL, STATUS
from ..street.line import Rule, damaged

CORPUS = pathlib.Path(__file__).resolve().parents[3] / "corpora" / "snmp" / "damaged.jsonl"
"""Messages with one damage each; only a checkout has them."""
FEW = 24
LONGEST = 1472


def by_line(community: bytes, count: int, seed: int) -> list[bytes]:
    """Returns Gets that a bad line has damaged, and octets at random. None of them can be a valid Set."""
    dice = random.Random(seed)
    found = []
    for at in range(count):
        octets = message(GET, dice.randrange(2**31), [(STATUS, None), (CONTROL, None)], community)
        rule = Rule(damage=100.0 * (at % 2), cut=100.0 * (at % 2 == 0))
        found.append(damaged(rule, octets, [dice.random() for _ in range(9)])[0])
    found.append(message(GET, 1, [(STATUS, None)], b"wrong" + community))
    found += [dice.randbytes(dice.randrange(1, LONGEST)) for _ in range(count // 4)]
    found += [b"", b"\x30", b"\x30\x84\xff\xff\xff\xff", b"\x30\x80" * 600]
    return [it for it in found if not may_set(it)]


def may_set(octets: bytes) -> bool:
    """Tells whether octets might be a Set to some reader: they have its tag."""
    return b"\xa3" in octets


def corpus() -> list[bytes]:
    """Returns the messages of the corpus that aren't valid and can't be a Set; none outside of a checkout."""
    if not CORPUS.is_file():
        return []
    rows = map(json.loads, CORPUS.read_text(encoding="utf-8").splitlines())
    found = [bytes.fromhex(it["hex"]) for it in rows if it["message"] is None and len(it["hex"]) % 2 == 0]
    return [it for it in found if not may_set(it)]


def damaged_messages(community: bytes) -> list[bytes]:
    """Returns a few damaged messages, the same each time."""
    return by_line(community, FEW, 1)


def hostile_messages(community: bytes, count: int) -> list[bytes]:
    """Returns many damaged messages: those of the corpus, and those of a bad line."""
    return corpus() + by_line(community, count, 2)
