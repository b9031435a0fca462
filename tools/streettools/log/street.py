"""The plan that a log is read with: its scenario, its names, which device is which cabinet, and which channel of
detectors calls which phase."""

import json
from dataclasses import dataclass, field
from typing import Any

from ..look.called import Called
from ..plan import taking
from ..shared.cabinet import opened
from ..shared.fault import Fault
from ..shared.tables import Tables


@dataclass
class Plan:
    """A timing sheet, or a scenario with its names, as a log needs it. `channels` has for each cabinet the phase of
    each channel of detectors; it is empty if the sheet has none."""

    scenario: dict[str, Any]
    names: Called
    channels: dict[int, dict[int, int]] = field(default_factory=dict)

    @property
    def cabinets(self) -> int:
        """Returns the number of cabinets."""
        return len(self.scenario["cabinets"])

    def tables(self, cabinet: int) -> Tables:
        """Returns the tables with which a cabinet opens."""
        return opened(self.scenario, cabinet).tables

    def place(self, cabinet: int) -> str:
        """Returns what a cabinet is called: its intersection's name, else its number."""
        return self.names.street(cabinet) or f"cabinet {cabinet}"

    def head(self) -> dict[str, Any]:
        """Returns the scenario with which a log is judged: the cabinets only."""
        version = 2 if any("gain" in it or "lose" in it for it in self.scenario["cabinets"]) else 1
        return {"version": version, "rounds": 1, "ticks": 1, "cabinets": self.scenario["cabinets"]}

    def line(self) -> str:
        """Returns the first line of a log for `judge`."""
        return f"S {json.dumps(self.head(), separators=(',', ':'), sort_keys=True)}\n"


def read(path: str, names: str | None = None) -> Plan:
    """Returns the plan of a sheet (TOML, workbook), of a scenario or of a field file."""
    street = taking.sheet(path, names)
    channels: dict[int, dict[int, int]] = {}
    for it in street.bank:
        channels.setdefault(it["cabinet"], {})[it["detector"]] = it["phase"]
    return Plan(street.scenario, Called(street.names), channels)


def device_option(text: str) -> tuple[str, str]:
    """Reads `1023=2` or `1023=Oak Ave` for argparse: a device, and the cabinet that it is."""
    device, equals, cabinet = text.partition("=")
    if not equals or not device.strip() or not cabinet.strip():
        raise ValueError
    return device.strip(), cabinet.strip()


def cabinets_of(devices: list[str], plan: Plan, given: list[tuple[str, str]]) -> dict[str, int]:
    """Returns the cabinet of each device that the plan has. A device is the cabinet that the options say; else that of
    its number or its name; the only device of a log is the only cabinet of a plan."""
    found: dict[str, int] = {}
    for device, cabinet in given:
        found[device] = plan.names.number(cabinet, plan.cabinets)
    if not given:
        known = {plan.names.street(number).casefold(): number for number in range(1, plan.cabinets + 1)}
        for device in devices:
            if device.isdecimal() and 1 <= int(device) <= plan.cabinets:
                found[device] = int(device)
            elif device.casefold() in known and device:
                found[device] = known[device.casefold()]
        if not found and len(devices) == 1 and plan.cabinets == 1:
            found[devices[0]] = 1
    unknown = [device for device in found if device not in devices]
    if unknown or not any(device in found for device in devices):
        raise Fault(none_fits(devices, unknown))
    doubled = [cabinet for cabinet in set(found.values()) if list(found.values()).count(cabinet) > 1]
    if doubled:
        raise Fault(f"two devices are {plan.place(doubled[0])}")
    return found


def none_fits(devices: list[str], unknown: list[str]) -> str:
    """Returns the words for devices that the plan or the log doesn't have."""
    listed = ", ".join(repr(it) for it in sorted(devices)[:12]) + (", .." if len(devices) > 12 else "")
    if unknown:
        return f"the log has no device {unknown[0]!r}: its devices are {listed}"
    return f"no device of the log is a cabinet of the plan: its devices are {listed}; --device ID=CABINET names one"
