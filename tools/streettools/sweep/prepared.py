"""A study made ready: what it says, its variants, the columns of its table, the key by which each run is known."""

import hashlib
import json
from dataclasses import dataclass
from pathlib import Path
from typing import Any

from ..shared.fault import Fault
from ..shared.tables import Tables
from . import checked, choice
from .building import Builder
from .choice import Column
from .one_run import Runner
from .study import Fetch, Study, study_of
from .values import Kind, Option
from .variants import Variant, Variants

HERE = Path(__file__).resolve().parents[1]
FOLDERS = (
    ("shared", "*"), ("sweep", "*"), ("cosim/queues", "*"), ("cosim", "__init__"), ("cosim", "movements"),
    ("cosim", "records"), ("cosim", "session"),
)  # fmt: skip
"""Where the modules are that a run needs, with those of the model of queues: folders and names."""


def modules() -> dict[str, str]:
    """Returns the text of each module that a run needs, by its path within the package."""
    files = [HERE / "__init__.py"]
    files += [it for folder, name in FOLDERS for it in sorted((HERE / folder).glob(f"{name}.py"))]
    return {str(it.relative_to(HERE)): it.read_text(encoding="utf-8") for it in files}


def hash_of(value: Any) -> str:
    """Returns the hash of a value that JSON can write, or of bytes."""
    return hashlib.sha256(
        value if isinstance(value, bytes) else json.dumps(value, sort_keys=True, default=str).encode()
    ).hexdigest()


@dataclass(frozen=True)
class Prepared:
    """A study made ready."""

    study: Study
    fetch: Fetch
    builder: Builder
    variants: Variants
    columns: tuple[Column, ...]

    def runner(self, check: bool, seconds: float) -> Runner:
        """Returns the runner of its variants."""
        return Runner(self.builder, self.builder.program, self.columns, self.study.own, check, seconds)

    def names(self) -> list[str]:
        """Returns the names of the table's columns."""
        seed = ["seed"] if self.study.seeds else []
        measured = [it.name() for it in self.columns] + [it.name for it in self.study.own]
        return ["run", *(it.name for it in self.study.parameters), *seed, "outcome", "words", "scenario", *measured]

    def line(self, index: int, row: list[Any]) -> list[Any]:
        """Returns a line of the table: the variant, and its results."""
        variant = self.variants.at(index)
        seed = [variant.seed] if self.study.seeds else []
        return [index + 1, *variant.shown(), *seed, *row]

    def key(self, tools: str, program: str, check: bool) -> "Keys":
        """Returns the keys of the runs, by the hashes of the tools and of the program."""
        study = self.study
        file = hash_of(self.fetch(study.base.file)) if study.base.file else study.base.words
        came = hash_of(self.fetch(study.tables["volumes"]["file"])) if "volumes" in study.tables else None
        puts = [[it.name, [repr(put) for put in it.puts]] for it in study.parameters]
        measured = [[it.name() for it in self.columns], [repr(it) for it in study.own]]
        return Keys(
            self,
            hash_of([tools, program, check, study.base.kind, file, came, study.tables, study.start, puts, measured]),
        )


@dataclass(frozen=True)
class Keys:
    """The keys of a study's runs: a hash of all that a run follows from."""

    prepared: Prepared
    fixed: str

    def of(self, variant: Variant) -> str:
        """Returns the key of a run."""
        more = [variant.cells] if variant.cells else []
        return hash_of([self.fixed, [self.told(it) for it in variant.values], variant.seed, *more])[:32]

    def told(self, value: Any) -> Any:
        """Returns a text that distinguishes a value from others; for an alternative, all that it puts."""
        if not isinstance(value, Option):
            return value
        return [value.name, repr(value.puts), hash_of(self.prepared.fetch(value.scenario)) if value.scenario else None]


def prepared(document: dict[str, Any], fetch: Fetch, program: Path) -> Prepared:
    """Makes a study ready, and refuses paths that aren't there."""
    study = study_of(document, fetch)
    variants = Variants(study)
    builder = Builder(study, fetch, program)
    first = variants.at(0)
    base = builder.document(first)["scenario"]
    checked.check_values(study)
    checked.check_beginning(study, base)
    for place, parameter in enumerate(study.parameters):
        for option in parameter.values.options if parameter.values.kind is Kind.OPTION else ():
            values = (*first.values[:place], option, *first.values[place + 1 :])
            checked.check_beginning(study, builder.document(Variant(0, values, first.seed))["scenario"])
    checked.check_phases(study, study.columns, phases_of(base))
    columns = choice.spread_out(study.columns, phases_of(base))
    found = Prepared(study, fetch, builder, variants, columns)
    names = found.names()
    twice = next((it for it in names if names.count(it) > 1), None)
    if twice:
        raise Fault(f"study: two columns of the table would be called {twice}")
    return found


def phases_of(scenario: dict[str, Any]) -> dict[int, list[int]]:
    """Returns the phases that each cabinet of the base opens with."""
    try:
        rows = enumerate(scenario["cabinets"], 1)
        return {number: Tables(it.get("base", "std8"), it.get("cells", ())).enabled() for number, it in rows}
    except (TypeError, ValueError, AttributeError, KeyError):
        return {number: [] for number in range(1, len(scenario["cabinets"]) + 1)}
