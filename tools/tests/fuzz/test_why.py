"""Traces that are damaged: `why` answers, or refuses them in one line, whatever is wrong with them."""

import pathlib
import sys

from hypothesis import given
from streettools.shared.fault import Fault

from .damage import damaged, tried

TOP = pathlib.Path(__file__).resolve().parents[3]
sys.path.append(str(TOP))
MIXED = (TOP / "tools/tests/look/traces/mixed.trace").read_bytes()


@tried(150)
@given(damaged([MIXED]))
def test_damaged_traces_are_explained_or_refused_in_one_line(octets):
    import tempfile

    from streettools.why import command

    with tempfile.NamedTemporaryFile(suffix=".trace") as file:
        file.write(octets)
        file.flush()
        for words in (["--phase", "4", "--at", "200t"], ["--phase", "2", "--at", "7", "--cabinet", "1", "--json"]):
            try:
                assert command.answered(command.parser().parse_args([file.name, *words])).endswith("\n")
            except Fault as fault:
                assert str(fault) and "\n" not in str(fault)
