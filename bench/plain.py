"""Crates without their contracts, as one file of Rust for rustc: what a bench measures where nothing is to be proved
first.

Contracts, ghost items and tactics are left out, and each crate becomes a module of its name; the words of Rattle's
library that differ from Rust's are those of plain_std.rs. What is built is the same code, word by word, in one unit.
"""

import pathlib
import re
import shutil
import subprocess
import tempfile

TOP = pathlib.Path(__file__).resolve().parent.parent
CABINET = (
    *(
        "sig_types", "ber_code", "snmp_msg", "sig_tables", "oid_map", "agent", "pattern_plan", "call_store",
        "phase_clock", "ped_clock", "ring_barrier",
    ),
    *(
        "coord_gate", "coord_count", "preempt_stages", "preempt_run", "flash_mode", "prio_queue", "tick_context",
        "engine", "controller", "rule_book", "stage_txn",
    ),
    *("cabinet_history", "look_back", "observer", "cab_book"),
)
MASTER = ("scenario_data", "requests", "master_plan", "master_load", "master_poll", "link_sim", "master_rounds")
HEAD = "#[allow(unused_imports)]\nuse crate::plain_std::*;\n"


def closed(text, start):
    """Returns the place behind the brace, bracket or parenthesis that closes the one which stands at start."""
    depth = 0
    for place in range(start, len(text)):
        depth += (text[place] in "{[(") - (text[place] in "}])")
        if not depth:
            return place + 1
    raise ValueError("a brace is open")


def without(text, begin, marks=",;"):
    """Leaves out all that begins so, up to the end of the braces that follow and one of the marks behind them."""
    while found := re.search(begin, text, re.M):
        end = closed(text, found.end() - 1)
        if more := re.match(r" (?:by|=) (?=\{)", text[end:]):
            end = closed(text, end + more.end())
        end += len(re.match(rf"[{marks}]?\n?", text[end:])[0])
        text = text[: found.start()] + text[end:]
    return text


def stripped(text, ghostly):
    """Returns a source file without contracts, and without impls of these traits, which stand in proofs alone."""
    text = re.sub(r"^ *//.*\n", "", text, flags=re.M)
    text = re.sub(r"^ *(?:ghost use [^;]*|use std::marker::Model);\n", "", text, flags=re.M)
    text = without(text, r"^ *(?:requires|ensures\*?)(?: \w+)? \{", ",")
    text = without(text, r"^ *(?:pub )?ghost \w+(?: =|:) \{")
    text = without(text, rf"^impl.* (?:{ghostly}) for [^{{]*\{{")
    text = without(text, r"^ *#!?\[(?=tactic|cycle)")
    text = re.sub(r"\bwhere\n(?=\s*\{)", "", text)
    return re.sub(r"#\[derive\(([^)]*)\)\]\n", derived, text)


def derived(found):
    """Returns a derive without Drop."""
    names = [name.strip() for name in found[1].split(",")]
    kept = [name for name in names if name != "Drop"]
    return f"#[derive({', '.join(kept)})]\n" if kept else ""


def placed(text, crate, crates):
    """Returns a stripped file in which paths of crates begin at the top."""
    text = re.sub(r"\bcrate::", f"crate::{crate}::", text)
    text = re.sub(r"\bstd::alloc::(?=[A-Z{])", "crate::plain_std::", text)
    text = re.sub(r"\bstd::(env|io|snapshot|thread)\b", r"crate::plain_edge::\1", text)
    text = re.sub(r"\bHostRuntime\b", "crate::plain_edge::HostRuntime", text)
    text = re.sub(r"\.(collect|to_string|to_vec)(?=(?:::<.*>)?\([a-z])", r".\1_in", text)
    names = "|".join(sorted(crates, key=len, reverse=True))
    return re.sub(rf"(?<![\w:.])({names})::", r"crate::\1::", text)


def module(crate, crates, left_out, top=TOP, ghostly="Model|Logged"):
    """Returns a crate as a module, with its files as modules in it."""
    source = top / "crates" / crate / "src"
    own = {file.stem for file in source.glob("*.rt")}

    def text_of(file):
        text = stripped(file.read_text(encoding="utf-8"), ghostly)
        return placed(text, crate, [name for name in crates if name not in own])

    def inner(found):
        public, name = found[1] or "", found[2]
        if f"{crate}/{name}" in left_out:
            return ""
        return f"{public}mod {name} {{\n{HEAD}{text_of(source / f'{name}.rt')}}}\n"

    root = source / ("main.rt" if (source / "main.rt").exists() else "lib.rt")
    text = re.sub(r"#\[cfg\(test\)\]\s*mod \w+;\n", "", text_of(root))
    text = re.sub(r"^(pub )?mod (\w+);\n", inner, text, flags=re.M)
    return f"pub mod {crate} {{\n{HEAD}{text}}}\n"


def built(main, crates, program, left_out=()):
    """Builds a program, which is the text of its own functions, over these crates."""
    names = [*crates, "arrayvec", "circular_buffer"]
    compiled(program, main, "".join(module(crate, names, left_out) for crate in crates))


def standing_below(crate, top):
    """Returns a crate of a tree and all that it stands on, the lowest first, and the kit's crates among them."""
    lines = (line.split("#")[0] for line in (top / "crates.txt").read_text(encoding="utf-8").splitlines())
    named = dict(line.split(":") for line in lines if ":" in line)
    below = {name.split()[0]: crates.split() for name, crates in named.items()}
    found = {}

    def go_down(name):
        if name not in found:
            for lower in below.get(name, ()):
                go_down(lower)
            found[name] = name in below

    go_down(crate)
    return [name for name, own in found.items() if own], [name for name, own in found.items() if not own]


def built_whole(top, program):
    """Builds the whole program of a tree, with stand-ins for the kit's crates and for the edge to the system."""
    crates, libraries = standing_below("arterial", top)
    modules = "".join(module(crate, [*crates, *libraries], (), top, "Model") for crate in crates)
    main = re.sub(r"^fn main\(", "pub fn main(", modules, flags=re.M)
    compiled(program, (TOP / "bench/plain_libraries.rs").read_text(encoding="utf-8"), main)


def compiled(program, main, modules):
    """Compiles the text of a program's own functions and these modules to a file."""
    standard = (TOP / "bench/plain_std.rs").read_text(encoding="utf-8")
    text = f"#![allow(warnings)]\n{standard}{modules}{main}"
    file = program.with_name(f"{program.name}.rs")
    file.write_text(text, encoding="utf-8")
    rustc = [
        "rustc", "--edition", "2024", "-O", "-g", "-C", "codegen-units=1", "-C", "panic=abort", "-o", program, file
    ]
    subprocess.run(rustc, check=True)


def counted(program, name, many):
    """Returns the instructions of one of so many by callgrind, between the calls that count; none without valgrind."""
    if not shutil.which("valgrind"):
        return None
    tool = [
        "valgrind",
        "--tool=callgrind",
        "--callgrind-out-file=/dev/null",
        "--collect-atstart=no",
        "--toggle-collect=*counted_*",
    ]
    ran = subprocess.run([*tool, program, "1", name], capture_output=True, text=True, check=True)
    return int(re.search(r"Collected : (\d+)", ran.stderr)[1]) / many


def measured(bench, crates, many, turns):
    """Builds the program of a bench and returns of each measure the least nanoseconds and the instructions of one."""
    with tempfile.TemporaryDirectory() as made:
        program = pathlib.Path(made) / bench
        built((TOP / f"bench/plain_{bench}.rs").read_text(encoding="utf-8"), crates, program, ("cab_book/logged",))
        ran = subprocess.run([program, str(turns), *many], capture_output=True, text=True, check=True)
        least = {}
        for line in ran.stdout.splitlines():
            name, took = line.split()
            least[name] = min(float(took), least.get(name, float("inf")))
        return {name: (least[name], counted(program, name, each)) for name, each in many.items()}


def told(found):
    """Writes a measure."""
    took, count = found
    return f"{took:.1f} ns" + (f" ({count:.0f} instructions)" if count else "")
