"""The versions of a sheet that is edited: texts, what they mean, and the way back and forth between them."""

import functools
from dataclasses import dataclass

from ...shared.given import Defect, Unreadable, Wrong
from .. import names, sources
from . import kept
from .changes import Change, Made, made
from .plans import Plan, plan_of

MOST = 500
"""How many versions are kept for undo; of more, the oldest is dropped."""
KEPT = 8
"""How many plans are kept."""
UNKEPT = "the sheet is written from its values, and its comments are left out; undo brings them back"


@functools.lru_cache(KEPT)
def planned(text: str) -> Plan:
    """Returns the plan of a sheet; raises Unreadable if the text isn't a sheet that can be drawn."""
    source = sources.source_of("sheet.toml", text.encode(), names.Names)
    if source.errors or source.street is None:
        raise Unreadable([Defect(it.where, it.words) for it in source.errors])
    return plan_of(source.street)


@dataclass(frozen=True)
class Version:
    """A version: its number, which no other one has, its text, and what changed. Its plan is read when it is asked
    for, since many plans of a long street take much memory."""

    number: int
    text: str
    label: str

    @property
    def plan(self) -> Plan:
        """The plan of the text."""
        return planned(self.text)


class Behind(Exception):
    """A change was asked of a version that isn't the current one."""


def read(number: int, text: str, label: str) -> Version:
    """Returns the version of a text; raises Unreadable if the text isn't a sheet that can be drawn."""
    planned(text)
    return Version(number, text, label)


@dataclass
class History:
    """All versions, the place of the current one, and the text that the file has."""

    versions: list[Version]
    saved: str
    at: int = 0
    count: int = 1

    @property
    def now(self) -> Version:
        """The current version."""
        return self.versions[self.at]

    @property
    def is_saved(self) -> bool:
        """Whether the file has the current version."""
        return self.now.text == self.saved

    def of(self, number: int) -> Version | None:
        """Returns the version of a number, None if it is gone."""
        return next((it for it in self.versions if it.number == number), None)

    def ask(self, number: int) -> None:
        """Refuses what is asked of a version that isn't the current one."""
        if number != self.now.number:
            raise Behind

    def add(self, version: Version) -> None:
        """Adds a version after the current one; those that were undone are dropped."""
        self.count = version.number
        self.versions[self.at + 1 :] = [version]
        del self.versions[:-MOST]
        self.at = len(self.versions) - 1

    def changed(self, change: Change) -> tuple[Version | None, list[str]]:
        """Returns the version that a change makes of the current one, None if it changes nothing, and its notes; raises
        Wrong if the change can't be made. The history stays as it is."""
        found = made(self.now.plan, change)
        version = self.in_place(found)
        if version is not None:
            return (None if version.text == self.now.text else version), found.notes
        try:
            version = read(self.count + 1, kept.from_values(found.plan), found.label)
        except Unreadable as fault:
            raise Wrong(f"the sheet can't hold this change: {fault}") from None
        return version, [*found.notes, UNKEPT]

    def in_place(self, found: Made) -> Version | None:
        """Returns the version of a changed plan with its comments and order; None if it can't be written in place."""
        try:
            text = kept.in_place(self.now.text, self.now.plan, found.plan)
            version = read(self.count + 1, text, found.label)
        except (kept.NotInPlace, Unreadable):
            return None
        return version if kept.means(version.plan.street, found.plan) else None

    def change(self, change: Change) -> list[str]:
        """Makes a change to the current version, and returns its notes."""
        version, notes = self.changed(change)
        if version is not None:
            self.add(version)
        return notes

    def undo(self) -> None:
        """Goes back by a version."""
        if self.at == 0:
            raise Wrong("there is nothing to undo")
        self.at -= 1

    def redo(self) -> None:
        """Goes forth by a version."""
        if self.at + 1 == len(self.versions):
            raise Wrong("there is nothing to redo")
        self.at += 1

    def take(self, text: str, label: str) -> None:
        """Adds a whole text as a version."""
        self.add(read(self.count + 1, text, label))


def begun(text: str) -> History:
    """Returns the versions of a sheet as it is opened."""
    return History([read(1, text, "as opened")], text)
