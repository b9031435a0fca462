"""What a user does to a cabinet of a street: it reboots, it hangs, or an alarm is on. The panel and lines of text ask
for these.

    reboot CABINET [SECONDS]     reboot 3 10
    hang CABINET SECONDS         hang 3 60     (0 ends it)
    alarm CABINET NAME on|off    alarm 3 stopTime on
"""

from collections.abc import Callable
from dataclasses import dataclass

from .line import Line
from .street import Street

UNIT_1 = {"cycleFault": 1, "coordFault": 2, "coordFail": 4, "cycleFail": 8, "mmuFlash": 16, "localFlash": 32}
UNIT_2 = {"powerRestart": 1, "lowBattery": 2, "responseFault": 4, "externalStart": 8, "stopTime": 16}
SHORT = {"localCycleZero": 4, "localOverride": 8, "coordinationAlarm": 16, "detectorFault": 32, "nonCriticalAlarm": 64}
"""The alarms that a user sets: the bits of unitAlarmStatus1, unitAlarmStatus2 and shortAlarmStatus (NTCIP 1202)."""
SHORT_ALSO = {"localFlash": 2, "mmuFlash": 2, "stopTime": 128}
"""The alarms of the unit that shortAlarmStatus also has: T&F flash and critical alarm."""
ALARMS = (*UNIT_1, *UNIT_2, *SHORT)
RESTARTED = "powerRestart"
USUAL_SECONDS, MOST_SECONDS, LONGEST = 10, 86_400, 200


class Wrong(ValueError):
    """A line that isn't one of these commands: why."""


@dataclass(frozen=True)
class Reboot:
    """The cabinet is silent for some seconds, and all cabinets of the session start up again."""

    cabinet: int
    seconds: int = USUAL_SECONDS


@dataclass(frozen=True)
class Hang:
    """The cabinet is silent for some seconds; its signals go on."""

    cabinet: int
    seconds: int


@dataclass(frozen=True)
class Alarm:
    """An alarm is on or off."""

    cabinet: int
    name: str
    is_on: bool


Act = Reboot | Hang | Alarm


def number(what: str, text: str, least: int, most: int) -> int:
    """Returns a whole number in a range."""
    if not (text.isascii() and text.isdigit() and len(text) <= len(str(most)) and least <= int(text) <= most):
        raise Wrong(f"{what} {text!r} is not a whole number from {least} to {most}")
    return int(text)


def act_of(line: str, cabinets: int) -> Act:
    """Returns what a line asks for, in a street of this number of cabinets; raises Wrong if it isn't a command."""
    words = line.split()
    match words:
        case ["reboot", cabinet]:
            return Reboot(number("cabinet", cabinet, 1, cabinets))
        case ["reboot", cabinet, seconds]:
            return Reboot(number("cabinet", cabinet, 1, cabinets), number("seconds", seconds, 0, MOST_SECONDS))
        case ["hang", cabinet, seconds]:
            return Hang(number("cabinet", cabinet, 1, cabinets), number("seconds", seconds, 0, MOST_SECONDS))
        case ["alarm", cabinet, name, ("on" | "off") as state]:
            if name not in ALARMS:
                raise Wrong(f"alarm {name!r} is not one of {', '.join(ALARMS)}")
            return Alarm(number("cabinet", cabinet, 1, cabinets), name, state == "on")
    raise Wrong("not a command: reboot CABINET [SECONDS], hang CABINET SECONDS, alarm CABINET NAME on|off")


def bits(names: set[str], of: dict[str, int]) -> int:
    """Returns the bits of the alarms that are on."""
    return sum(bit for name, bit in of.items() if name in names)


class Acts:
    """Does what a user asks for. `note` records it, by its cabinet and its words."""

    def __init__(self, street: Street, line: Line, note: Callable[[int, str], None]) -> None:
        self.street, self.line, self.note = street, line, note

    def do(self, act: Act) -> None:
        """Does one thing."""
        if isinstance(act, Alarm):
            names = self.street.alarms.setdefault(act.cabinet, set())
            (names.add if act.is_on else names.discard)(act.name)
            self.note(act.cabinet, f"alarm {act.name} {'on' if act.is_on else 'off'}")
            return
        is_reboot = isinstance(act, Reboot)
        self.line.silence(act.cabinet, act.seconds, "reboots" if is_reboot else "hangs")
        self.note(act.cabinet, f"{'reboot' if is_reboot else 'hang'} {act.seconds}")
        if is_reboot:
            self.street.alarms.setdefault(act.cabinet, set()).add(RESTARTED)
            self.street.restart()
