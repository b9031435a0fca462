"""The command `./arterial why`: why a phase is green, or isn't, at a tick, by the independent model (model/)."""

from ..shared.fault import Fault
from ..shared.independent import has_model
from ..shared.status import Status

if not has_model():
    raise Fault("the model (the folder model of a checkout), which reckons it, isn't here", Status.FILE)
