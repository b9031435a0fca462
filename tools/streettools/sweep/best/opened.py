"""A search made ready: its study, with the seeds that are held back, its plans, its goal, the names of its street."""

import argparse
from dataclasses import dataclass
from pathlib import Path
from typing import Any

from ...plan import sources
from ...plan.names import Names
from ...plan.sources import Source
from ...shared.fault import Fault
from ...shared.given import content_of
from ...shared.program import found
from ..files import Files, study_file
from ..prepared import Keys, Prepared, hash_of, modules, prepared
from ..study import BaseKind
from .goal import Goal
from .plans import Rules
from .space import Space
from .wanted import Wanted, wanted_of


@dataclass
class Opened:
    """A search: what is wanted, the study's text and files, the study made ready, the keys of its runs, its plans and
    their rules, its goal, and the file of its base, None if the base is made by the program."""

    wanted: Wanted
    document: dict[str, Any]
    files: Files
    ready: Prepared
    keys: Keys
    space: Space
    rules: Rules
    goal: Goal
    source: Source | None

    def names(self) -> Names:
        """Returns what the street of the base is called."""
        return self.source.street.names if self.source is not None and self.source.street is not None else Names()


def opened(words: argparse.Namespace) -> Opened:
    """Reads a study, and makes its search ready."""
    path = Path(words.study)
    files = Files(path.parent)
    wanted, document = wanted_of(study_file(path), files)
    program = found(words.program)
    ready = prepared(document, files, program)
    source = source_of(ready, files)
    names = source.street.names if source is not None and source.street is not None else Names()
    keys = ready.key(hash_of(modules()), hash_of(program.read_bytes()), words.check)
    space, rules = Space(ready), Rules(ready.builder, names)
    return Opened(wanted, document, files, ready, keys, space, rules, Goal(wanted, ready), source)


def source_of(ready: Prepared, files: Files) -> Source | None:
    """Returns the file of the base as `plan` reads it; None for one that the program makes."""
    base = ready.study.base
    if base.kind is not BaseKind.SCENARIO or base.file is None:
        return None
    path = str(files.folder / base.file)
    known = files.folder / base.file
    source = sources.source_of(path, content_of(known), lambda: sources.names_of(path, None))
    if source.street is None:
        raise Fault("\n".join(f"{base.file}: {it}" for it in source.errors))
    return source
