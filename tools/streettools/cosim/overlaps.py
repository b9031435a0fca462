"""An overlap while its cabinet runs, by the rules of `arterial overlaps` (docs/TRACE.md), tick by tick."""

from .mapping import Overlap


class OverlapLight:
    """What an overlap shows: `G`, `Y`, `C` or `R`. `changed` takes the ticks at which its cabinet's colours change, in
    their order; `at` answers for any later tick."""

    def __init__(self, overlap: Overlap) -> None:
        self.overlap = overlap
        self.shows = "R"
        self.since = self.tick = 0
        self.parent_is_green = False
        self.last_green = -(10**9)

    def changed(self, tick: int, colours: str) -> None:
        """Takes the colours that the cabinet shows from a tick on."""
        self.at(tick - 1)
        self.parent_is_green = any(colours[phase - 1] == "G" for phase in self.overlap.parents)

    def at(self, tick: int) -> str:
        """Advances to a tick, and returns what is shown there."""
        while self.tick < tick:
            self.tick += 1
            if self.parent_is_green:
                self.last_green = self.tick
            shows = self.after()
            if shows != self.shows:
                self.shows, self.since = shows, self.tick
        return self.shows

    def after(self) -> str:
        """Returns what the overlap shows at this tick, by what it showed before."""
        lasted = self.tick - self.since
        match self.shows:
            case "R":
                return "G" if self.parent_is_green else "R"
            case "G":
                return "G" if self.tick - self.last_green <= self.overlap.trail else "Y"
            case "Y":
                if lasted < self.overlap.yellow:
                    return "Y"
                return "C" if self.overlap.red else "R"
        return "C" if lasted < self.overlap.red else "R"
