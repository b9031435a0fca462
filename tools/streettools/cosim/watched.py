"""Vehicles of certain classes or types, as buses and trains, while they are under way."""

from typing import Any

from .drive import call


class Watched:
    """Which vehicles of the classes and types that are asked for are under way, with class and type of each."""

    def __init__(self, names: set[str], sumo: Any) -> None:
        self.names = names
        self.departed = call(sumo, "simulation", "getDepartedIDList")
        self.arrived = call(sumo, "simulation", "getArrivedIDList")
        self.type_of = call(sumo, "vehicle", "getTypeID")
        self.kinds: dict[str, tuple[str, str]] = {}
        self.others: set[str] = set()
        """Types that nobody asks for."""

    def step(self, sumo: Any) -> None:
        """Takes who has come and who has gone in a step."""
        for vehicle in self.departed():
            own = self.type_of(vehicle)
            if own in self.others:
                continue
            kinds = sumo.vehicle.getVehicleClass(vehicle), own.partition("@")[0]
            if not self.names.isdisjoint(kinds):
                self.kinds[vehicle] = kinds
            elif "@" not in own:
                self.others.add(own)
        if self.kinds:
            for vehicle in self.arrived():
                self.kinds.pop(vehicle, None)

    def of(self, names: tuple[str, ...]) -> list[str]:
        """Returns those of these classes or types."""
        return [vehicle for vehicle, kinds in self.kinds.items() if kinds[0] in names or kinds[1] in names]
