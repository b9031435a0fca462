"""The texts for `check` and what is due for each; and how the trace of a run is checked."""

import functools
import json
import subprocess
import sys

sys.dont_write_bytecode = True

from running import HERE, SECONDS  # noqa: E402


def listed(name):
    """Yields the object in each line of a file, with the words that name it."""
    lines = (HERE / name).read_text(encoding="utf-8").split("\n")
    for number, line in enumerate(filter(None, lines), 1):
        yield f"{name} line {number}", json.loads(line)


def bytes_of(part):
    """Returns the bytes of a part of a text: a text, each character of which is a byte, or such a text and how often it
    stands."""
    return part.encode("latin-1") if isinstance(part, str) else part[0].encode("latin-1") * part[1]


def spelled(parts):
    """Returns a text of which the parts are told."""
    return b"".join(map(bytes_of, parts))


def in_order(order):
    """Returns the trace in another order that an object of orders.jsonl tells: lines of the trace in `whole`, and its
    own."""
    lines = (HERE / f"{order['of']}.trace").read_bytes().splitlines(keepends=True)
    told = (f"{it}\n".encode() if isinstance(it, str) else b"".join(lines[it[0] - 1 : it[1]]) for it in order["lines"])
    return b"".join(told)


@functools.cache
def orders():
    """Returns the objects of orders.jsonl by the names of their traces."""
    return {f"{order['of']}.other": order for _, order in listed("orders.jsonl")}


@functools.cache
def trace_of(name):
    """Returns the trace of a name: a file, or one in another order, `whole/NAME.other`."""
    return in_order(orders()[name]) if name in orders() else (HERE / name).read_bytes()


def damaged(damage):
    """Returns the text that an object of damaged.jsonl tells: a trace of which some bytes stand for others."""
    trace = trace_of(damage["of"])
    return trace[: damage["from"]] + bytes_of(damage["put"]) + trace[damage["to"] :]


def texts():
    """Yields each text's name, what gives its bytes, and the line that is due, None where it is a trace."""
    for name in orders():
        yield name, functools.partial(trace_of, name), None
    for name, damage in listed("damaged.jsonl"):
        yield f"{name} ({damage['of']})", functools.partial(damaged, damage), damage["line"]
    for name, worked in listed("worked_checks.jsonl"):
        yield f"{name} ({worked['name']})", functools.partial(spelled, worked["text"]), worked.get("line")


def checked(program, trace):
    """Returns what the program says against a trace, None where it says nothing and that it is one."""
    try:
        ran = subprocess.run([program, "check"], input=trace, capture_output=True, timeout=SECONDS)
    except subprocess.TimeoutExpired:
        return f"its check has not ended after {SECONDS} seconds"
    if (ran.returncode, ran.stdout, ran.stderr) == (0, b"", b""):
        return None
    return f"its check ends with status {ran.returncode}, it said {ran.stderr.decode(errors='replace')[:90]!r}"


def ends_early(program, text):
    """Returns whether the program says of a text that its first fault is its end: that some trace goes on behind it."""
    line, rule = text.count(b"\n") + 1, 10 if text == b"" or text.endswith(b"\n") else 2
    ran = subprocess.run([program, "check"], input=text, capture_output=True, timeout=SECONDS)
    return (ran.returncode, ran.stdout, ran.stderr) == (5, b"", f"trace: line {line} breaks rule {rule}\n".encode())
