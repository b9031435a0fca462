"""The logs for `judge`, and what is expected for each.

`judged/worked.jsonl` is hand-computed; `breaking.py` made `judged/broken.jsonl`. Each trace of the vectors is a log
without a breach, since a trace keeps all rules.
"""

import json
import sys

sys.dont_write_bytecode = True

from breaking import text_of  # noqa: E402
from checking import listed, orders, trace_of  # noqa: E402
from running import HERE  # noqa: E402

DONE, LINE_REFUSED, UNSAFE = 0, 5, 8


def worked_text(it):
    """Returns the log of a hand-computed case."""
    lines = (f"S {json.dumps(it['scenario'])}", *it["lines"])
    return "".join(f"{line}\n" for line in lines).encode()


def expected(it):
    """Returns the exit status, standard output and standard error that a case expects."""
    output = "".join(f"{line}\n" for line in it["output"]).encode()
    if "refused" in it:
        return LINE_REFUSED, output, "log: line {} {}\n".format(*it["refused"]).encode()
    if any(line.startswith("B ") for line in it["output"]):
        return UNSAFE, output, b"log: not safe\n"
    return DONE, output, b""


def of_trace(text):
    """Returns what is expected of a trace: no breach, and a line for the first download of each cabinet that the
    scenario doesn't have."""
    scenario = json.loads(text[2 : text.index(b"\n")])
    loads = [it["cabinet"] for it in scenario.get("loads", ())]
    unknown = {}
    for line in text.splitlines():
        if line.startswith(b"L ") and b" accepted " in line:
            cabinet, number = map(int, line.split(b" ")[1:3])
            if not 1 <= number <= loads.count(cabinet):
                unknown.setdefault(cabinet, number)
    lines = [*(f"U {cabinet} {number}" for cabinet, number in unknown.items()), f"Z {len(scenario['cabinets'])} 0"]
    return DONE, "".join(f"{line}\n" for line in lines).encode(), b""


def logs():
    """Yields the name, the title, the words, the log and what is expected of each case."""
    for name, it in listed("judged/worked.jsonl"):
        yield name, it["name"], it["words"], worked_text(it), expected(it)
    for name, it in listed("judged/broken.jsonl"):
        yield name, it["name"], it["words"], text_of(it), expected(it)
    traces = [f"{it.parent.name}/{it.name}" for it in sorted(HERE.glob("*/*.trace"))]
    for name in (*traces, *orders()):
        yield name, "a trace", ["judge"], trace_of(name), of_trace(trace_of(name))
