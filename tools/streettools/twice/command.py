"""`tools/twice`: lists lemmas and definitions that are in the crates more than once."""

import argparse
import pathlib

from .items import Item, items

EXAMPLES = """examples:
  tools/twice                 list the groups of equal items, the longest first
  tools/twice --least 5       only items of five lines or more
"""


def groups(top: pathlib.Path, least: int = 2) -> list[list[Item]]:
    """Returns the groups of equal items of at least this many lines, the one with most lines first."""
    found: dict[str, list[Item]] = {}
    for part in ("proofs", "specs"):
        for file in sorted((top / "crates").glob(f"*/{part}/**/*.antt")):
            for item in items(file, str(file.relative_to(top / "crates"))):
                if item.lines >= least:
                    found.setdefault(item.text, []).append(item)
    many = [it for it in found.values() if len(it) > 1]
    return sorted(many, key=lambda it: (-saved(it), it[0].file, it[0].name))


def saved(group: list[Item]) -> int:
    """Returns the number of lines that go if one item of a group remains."""
    return sum(it.lines for it in group[1:])


def parser() -> argparse.ArgumentParser:
    """Returns the reader of the command's words."""
    reader = argparse.ArgumentParser(
        prog="tools/twice",
        description="Lists lemmas and definitions of the crates whose texts are the same except for names.",
        epilog=EXAMPLES,
        formatter_class=argparse.RawDescriptionHelpFormatter,
    )
    reader.add_argument("--least", type=int, default=2, help="lines of an item, at least (default: 2)")
    return reader


def main(words: list[str]) -> int:
    """Prints the groups; the status is 0."""
    top = pathlib.Path(__file__).resolve().parents[3]
    found = groups(top, parser().parse_args(words).least)
    for group in found:
        print(f"{group[0].lines} lines, {len(group)} times")
        for item in group:
            print(f"    {item.file}: {item.name}")
    print(f"{len(found)} groups; {sum(map(saved, found))} lines could go")
    return 0
