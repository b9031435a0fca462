"""The best plan as a timing sheet. If the study's base is a sheet, its comments and order are kept where the values can
be put in place."""

from dataclasses import replace
from typing import Any

from ...plan import kept_text, toml_text, writing
from ...plan.edit import kept
from ...plan.reading import Street
from ...plan.sources import Source
from ...shared.cells import tables_of


def text_of(source: Source, scenario: dict[str, Any]) -> tuple[str, bool]:
    """Returns the sheet of a plan, and whether it is the text of the study's sheet with other values."""
    before = source.street
    assert before is not None, "a study's base was read before"
    after = replace(before, scenario=before.scenario | {"cabinets": scenario["cabinets"]})
    try:
        if source.sheet is not None:
            said = in_place(source.sheet, before, after)
            if kept_text.comes_to(said, after):
                return said, True
    except (kept.NotInPlace, LookupError, TypeError):
        pass
    return toml_text.text(writing.sheet_of(after)), False


def in_place(text: str, before: Street, after: Street) -> str:
    """Returns the text of a sheet with the values of patterns and splits that differ."""
    import tomlkit

    sheet: Any = tomlkit.parse(text)
    pairs = zip(before.scenario["cabinets"], after.scenario["cabinets"], strict=True)
    for number, (old, new) in enumerate(pairs, 1):
        partners = after.names.intersection(number).partners
        kept.put_cells(sheet["intersection"][number - 1], tables_of(old), tables_of(new), partners)
    return str(tomlkit.dumps(sheet))
