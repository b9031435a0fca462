"""The colours of a page. Most are from the palette of Okabe and Ito (Color Universal Design, 2008), which readers with
any of the common colour deficiencies can distinguish. Letters are next to them, so that a page printed in black is
readable.
"""

SIGNALS = {
    "green": "#009e73", "yellow": "#f0e442", "clearance": "#a63c00", "red": "#d9dfe5", "walk": "#ffffff",
    "flashing": "#e69f00",
}  # fmt: skip
MODES = {"S": "#ced4da", "F": "#d6ebf8", "K": "#fbf3bf", "C": "#cdeadf", "E": "#f5d3bd", "X": "#e39a6b", "P": "#e3bcd2"}
MARKS = {
    "note": "#0072b2", "accepted": "#009e73", "refused": "#d55e00", "clock": "#56707f", "priority": "#cc79a7",
    "breach": "#8b0000",
}  # fmt: skip
BANDS = {"outbound": "#0072b2", "inbound": "#d55e00"}
LINES = {
    "zero": "#0072b2", "met": "#0072b2", "away": "#c2410c", "barrier": "#22262a", "call": "#56b4e9",
    "preempt": "#cc79a7",
}  # fmt: skip
ALL = {"signals": SIGNALS, "modes": MODES, "marks": MARKS, "bands": BANDS, "lines": LINES}
