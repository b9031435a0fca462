"""Makes a variant's scenario: the base, with what the variant puts, and with what its seed draws."""

import copy
import functools
import hashlib
import json
from dataclasses import dataclass, replace
from pathlib import Path
from typing import Any

from ..cosim.queues import said
from ..shared.fault import Fault
from ..shared.program import ran
from . import drawn, queued
from .drawn import Drawn
from .files import facts_name
from .queued import Queued
from .sensed import Stream, streams_of
from .study import Base, BaseKind, Fetch, Street, Study, street_of
from .values import Option
from .variants import Variant

SHARED = ("inputs", "loads", "priority", "frames", "faults")
"""Lists of a scenario that are long, and are copied only if a path leads into them."""


@dataclass(frozen=True)
class Built:
    """A variant that was made: its scenario as text and as a value, the street of its bands, the generated inputs,
    which aren't in the value (those that are there come before them), and the traffic if the study has volumes."""

    text: bytes
    scenario: dict[str, Any]
    street: Street | None
    drawn: Drawn | None = None
    queued: Queued | None = None

    def name(self) -> str:
        """Returns the name that distinguishes this scenario from others: the first 16 digits of the SHA-256 of its
        text."""
        return hashlib.sha256(self.text).hexdigest()[:16]

    def streams(self) -> list[Stream]:
        """Returns all inputs by cabinet and phase."""
        own = streams_of(self.scenario.get("inputs", ()))
        return [*own, *self.drawn.streams] if self.drawn else own

    def whole(self) -> dict[str, Any]:
        """Returns the scenario's value with all inputs."""
        if self.drawn is None:
            return self.scenario
        return self.scenario | {"inputs": (*self.scenario.get("inputs", ()), *self.drawn.values())}


class Builder:
    """Makes the scenarios of a study's variants."""

    def __init__(self, study: Study, fetch: Fetch, program: Path) -> None:
        self.study, self.fetch, self.program = study, fetch, program
        self.base = functools.lru_cache(maxsize=8)(self.read)
        puts = [put for it in study.parameters for put in it.puts]
        puts += [put for it in study.parameters for option in it.values.options for put, _ in option.puts]
        self.deep = {name for name in SHARED if any(it.path and it.path.startswith(name) for it in puts)}

    def read(self, base: str | None, seed: int | None) -> dict[str, Any]:
        """Returns a scenario to begin with: that of a file, or of the study's base with this seed for `generate`."""
        if base is not None:
            return parsed(self.fetch(base), base)
        found: Base = self.study.base
        if found.file is not None:
            text = self.fetch(found.file)
            return parsed(self.asked(["respond"], text) if found.kind is BaseKind.FIELD else text, found.file)
        words = found.words | ({} if seed is None else {"seed": seed})
        given = [word for name in ("seed", "cabinets", "rounds") for word in (f"--{name}", str(words[name]))]
        return parsed(self.asked(["generate", *given], b""), "generate")

    def asked(self, words: list[str], text: bytes) -> bytes:
        """Returns the program's answer for a base that it has to make first."""
        answer = ran(self.program, *words, given=text)
        if answer.status:
            raise Fault(f"{' '.join(words)}: {answer.said}")
        return answer.out

    def document(self, variant: Variant) -> dict[str, Any]:
        """Returns the scenario with what the variant puts, and the study's tables next to it."""
        other = next((it.scenario for it in variant.values if isinstance(it, Option) and it.scenario), None)
        seeded = variant.seed if self.study.base.kind is BaseKind.GENERATE else None
        base = self.base(other, None if other else seeded)
        scenario = {
            name: it if name in SHARED and name not in self.deep else copy.deepcopy(it) for name, it in base.items()
        }
        document = {"scenario": scenario} | copy.deepcopy(self.study.tables)
        for parameter, value in zip(self.study.parameters, variant.values):
            puts = value.puts if isinstance(value, Option) else [(it, value) for it in parameter.puts]
            for put, what in puts:
                put.put(document, what)
        for number, cell in variant.cells:
            it = scenario["cabinets"][number - 1]
            it["cells"] = [*it.get("cells", ()), list(cell)]
        return document

    def built(self, variant: Variant) -> Built:
        """Returns a variant's scenario."""
        document = self.document(variant)
        scenario = document["scenario"]
        found = self.drawn(document, variant.seed)
        if "line" in document:
            faults = drawn.faults_of(
                json.dumps(document["line"]), variant.seed or 1, scenario["rounds"], len(scenario["cabinets"])
            )
            scenario["faults"] = [*scenario.get("faults", ()), *faults]
        street = street_of(document["street"]) if "street" in document else None
        if found is None:
            table = document.get("volumes")
            came = queued.queued_of(table, variant.seed, self.fetch) if table else None
            came = self.fitted(came, variant) if came else None
            return Built(written(scenario).encode(), scenario, street, None, came)
        own = scenario.pop("inputs", ())
        short = written(scenario)[:-1]
        words = found.text
        if own and document["traffic"].get("keep"):
            scenario["inputs"] = own
            words = ",".join(filter(None, (written(own)[1:-1], words)))
        return Built(f'{short},"inputs":[{words}]}}'.encode(), scenario, street, found)

    def fitted(self, came: Queued, variant: Variant) -> Queued:
        """Returns the traffic, with what the timing sheet of a variant has said already."""
        other = next((it.scenario for it in variant.values if isinstance(it, Option) and it.scenario), None)
        facts = facts_name(other or self.study.base.file or "")
        if facts is None:
            return came
        return replace(came, volumes=said.fitted(came.volumes, said.read(json.loads(self.fetch(facts)))))

    def drawn(self, document: dict[str, Any], seed: int | None) -> Drawn | None:
        """Returns the inputs that are drawn."""
        traffic, scenario = document.get("traffic", {}), document["scenario"]
        if not traffic.get("flow"):
            return None
        number = 1 if seed is None else seed
        return drawn.inputs_of(json.dumps(traffic), number, scenario["rounds"], scenario["ticks"])


def written(value: Any) -> str:
    """Returns a value as JSON."""
    return json.dumps(value, separators=(",", ":"))


def parsed(text: bytes, name: str) -> dict[str, Any]:
    """Returns a scenario's value, which has to have what variants are made from."""
    try:
        scenario = json.loads(text)
        if not isinstance(scenario, dict) or not isinstance(scenario["cabinets"], list):
            raise ValueError
        scenario["rounds"] * scenario["ticks"] * 1
    except (ValueError, KeyError, TypeError, RecursionError):
        raise Fault(f"{name} is not a valid scenario (./arterial run shows why)") from None
    return scenario
