"""Which files are sheets, by their names: apart from what reads them, which takes a while to import."""

SHEETS = (".toml", ".xlsx")


def is_sheet(path: str) -> bool:
    """Tells whether a file is a sheet, by its name."""
    return path.endswith(SHEETS)
