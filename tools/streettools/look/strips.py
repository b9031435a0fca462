"""A strip that shows a cabinet's mode over time, under the other rows of a picture."""

from collections import defaultdict

from streettools.shared.cabinet import mode_of

from . import pictures

STAGES = {"entry": "#e5dbff", "track": "#b197fc", "dwell": "#d0bfff", "exit": "#f3f0ff"}


class Modes:
    """The modes of a cabinet from one tick to another: `spans` are a mode as it is written, its first tick and its
    end."""

    def __init__(self, start, end):
        self.start, self.end = start, end
        self.now, self.since = None, 0
        self.spans = []

    def shown(self, frame):
        """Takes over the mode of a frame."""
        if frame.mode != self.now:
            self.keep(frame.tick)
            self.now, self.since = frame.mode, frame.tick

    def keep(self, tick):
        """Keeps the mode that ends at this tick, cut to the time that is looked at."""
        since, end = max(self.since, self.start), min(tick, self.end)
        if self.now is not None and since < end:
            self.spans.append((self.now, since, end))

    def close(self, last):
        """Ends the last mode with the trace."""
        self.keep(last)


def labels(mode):
    """Returns the words for a mode, longest first."""
    word = f"{mode.words} {mode.number}" if mode.number else mode.words
    short = mode.letter + (str(mode.number) if mode.letter in "CKP" else "")
    return [f"{word} {mode.stage}".strip(), f"{short} {mode.stage}".strip(), short]


def draw(axes, spans, low, height):
    """Draws the strip, with the words of each mode where they have room."""
    groups = defaultdict(list)
    for text, start, end in spans:
        mode = mode_of(text)
        groups[mode.words.split("-")[0], STAGES.get(mode.stage) or pictures.MODES[mode.letter]].append((start, end))
        space = pictures.room(axes, start, end)
        label = next((it for it in labels(mode) if pictures.width_of(it, 8) < space), None)
        if label:
            axes.text(
                (start + end) / 20, low + height / 2, label, ha="center", va="center", fontsize=8, color=pictures.INK
            )
    for (word, colour), shown in groups.items():
        pictures.bars(axes, shown, low, height, f"mode-{word}", facecolor=colour, edgecolor="white", linewidth=0.6)
