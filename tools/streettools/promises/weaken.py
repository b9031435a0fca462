"""`edits/weaken`: weakens statements of the promises, drawn at random, and shows that the record notices each."""

import argparse
import pathlib
import random
import re
import shutil
import tempfile
from collections.abc import Iterator

from streettools.shared.status import Status

from . import reached, record

ABOUT = """Draws clauses, fields and equations of the promises at random: of the top call, of Answers, of Safe, Whole
and Meets, and of all other definitions, a sixth each while there are some left. Each is weakened in one way in a copy
of the sources, which is compared with edits/promises.sums as the test of the promises does. Prints a table."""
EXAMPLES = """examples:
  edits/weaken                          40 of them
  edits/weaken --count 8 --seed 5       eight, by another seed

Exit status: 0 if the record notices each, 1 if it misses one, 2 if the arguments are not valid."""

TOP_CALL, ANSWERS = "crates/station/src/top.rt#station", "crates/station/specs/Commands.antt"
SAFE, WHOLE = (f"crates/safety_laws/specs/{it}.antt" for it in ("Safe", "Whole"))
GROUPS = {TOP_CALL: 0, ANSWERS: 1, SAFE: 2, WHOLE: 3, "crates/plan_facts/specs/Meets.antt": 4}
HEAD = re.compile(r"\s*(?:abbrev|pub (?:record|struct|enum|fn|trait|use|mod)|use|ghost use|#|\}|\)|\{$)")
"""A row whose removal makes no statement weaker: an import, or where a definition or a type begins or ends."""
INNER = r"\((?:[^()]|\((?:[^()]|\([^()]*\))*\))*\)"
WAYS: dict[str, tuple[re.Pattern[str], dict[str, str]]] = {
    "< as ≤": (re.compile(r" < | nat_lt "), {" < ": " ≤ ", " nat_lt ": " nat_le "}),
    "a conjunct dropped": (re.compile(rf" (?:×|&&) (?:[^()×&→⊎{{}}\n]|{INNER})+?(?= ×| &&| →| ⊎| }}|[)\n])"), {}),
}
"""What is weakened in a text, and what replaces it; an empty text if it isn't among these."""


def units(stated: str, text: str) -> Iterator[str]:
    """Yields the clauses, fields and equations of a statement, as its file's text has them, with all their rows."""
    left, unit, depth = stated.splitlines(), "", 0
    for row in text.splitlines(keepends=True):
        if not left or not row.startswith(left[0]):
            continue
        indent, is_head = len(row) - len(row.lstrip()), HEAD.match(left.pop(0)) is not None
        if unit and indent > depth and not is_head:
            unit += row
            continue
        if unit and text.count(unit) == 1:
            yield unit
        unit, depth = "" if is_head else row, indent
    if unit and text.count(unit) == 1:
        yield unit


def pools(top: pathlib.Path) -> list[list[tuple[str, str]]]:
    """Returns the units to choose from, group by group: each with its place."""
    found: list[list[tuple[str, str]]] = [[] for _ in range(6)]
    for place, stated in sorted(reached.Statements(top).items()):
        text = (top / place.partition("#")[0]).read_text(encoding="utf-8")
        for unit in units(stated, text):
            is_other = place == TOP_CALL and "ensures " not in unit
            is_other = is_other or place == ANSWERS and text.index(unit) < text.index("pub record Answers ")
            found[5 if is_other else GROUPS.get(place, 5)].append((place, unit))
    return found


def weakened(unit: str, chance: random.Random) -> tuple[str, str]:
    """Returns a way to weaken a unit, and what is left of it."""
    ways = {way: part.sub(lambda it: new.get(it[0], ""), unit, count=1) for way, (part, new) in WAYS.items()}
    way = chance.choice([way for way, left in ways.items() if left != unit] or ["removed"])
    return way, ways.get(way, "")


def trials(top: pathlib.Path, count: int, seed: int) -> Iterator[tuple[str, str, str, str, bool]]:
    """Weakens that many units in turn; yields the place, the way, the unit, what is left, and whether a promise notices
    it."""
    chance, old, drawn = random.Random(seed), record.read(top / record.PROMISES), pools(top)
    with tempfile.TemporaryDirectory() as folder:
        for it in (*top.glob("crates/*/specs"), *top.glob("crates/*/src")):
            shutil.copytree(it, pathlib.Path(folder, it.relative_to(top)))
        for _ in range(count):
            pool = chance.choice([it for it in drawn if it])
            place, unit = pool.pop(chance.randrange(len(pool)))
            file, (way, left) = pathlib.Path(folder, place.partition("#")[0]), weakened(unit, chance)
            text = file.read_text(encoding="utf-8")
            file.write_text(text.replace(unit, left), encoding="utf-8")
            changed = record.changed(old, record.promises(reached.Statements(pathlib.Path(folder))))
            file.write_text(text, encoding="utf-8")
            yield place, way, unit, left, place in changed


def main(words: list[str], top: pathlib.Path = record.TOP) -> int:
    """Prints the table, and returns the exit status."""
    form = argparse.RawDescriptionHelpFormatter
    asked = argparse.ArgumentParser("edits/weaken", description=ABOUT, epilog=EXAMPLES, formatter_class=form)
    asked.add_argument("--count", type=int, default=40, help="how many (default: 40)")
    asked.add_argument("--seed", type=int, default=1, help="the seed of the draw (default: 1)")
    given = asked.parse_args(words)
    missed = 0
    print("| | Statement | Way | Before | After | Noticed |\n|---|---|---|---|---|---|")
    for number, (place, way, unit, left, noticed) in enumerate(trials(top, given.count, given.seed), 1):
        missed += not noticed
        before, after = (f"`{' '.join(it.replace('|', '¦').split())}`" if it else "" for it in (unit, left))
        print(f"| {number} | {place} | {way} | {before} | {after} | {'yes' if noticed else 'NO'} |", flush=True)
    print(f"\n{given.count - missed} of {given.count} noticed")
    return Status.FILE if missed else Status.DONE
