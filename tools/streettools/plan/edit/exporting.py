"""A version as files for other programs: the sheet, its scenario, UTDF, and the downloads from the file's version."""

import json

from ...cosim.queues import said
from ...shared.given import Wrong
from .. import loads, utdf_out
from .measuring import Traffic
from .versions import Version

KINDS = {"sheet": ".toml", "scenario": ".json", "utdf": ".csv", "loads": ".loads.json"}
"""What can be exported, with the ends of the files' names."""


def exported(kind: str, version: Version, saved: Version, pattern: int, traffic: Traffic | None) -> str:
    """Returns the text of a file; raises Wrong, with the reason, if there is none."""
    street = version.plan.written()
    if kind == "sheet":
        return version.text
    if kind == "scenario":
        whole = street.field_file() if street.is_field() else street.scenario
        return json.dumps(whole, separators=(",", ":"), ensure_ascii=False) + "\n"
    if kind == "utdf":
        volumes = said.with_travels(traffic.volumes, said.said_in(street.names)) if traffic else None
        return utdf_out.written(street, pattern, volumes)[0]
    if kind == "loads":
        found = loads.between(saved.plan.written(), street, 1, False)
        return json.dumps({"loads": found}, separators=(",", ":")) + "\n"
    raise Wrong(f"{kind[:40]!r} isn't exported")
