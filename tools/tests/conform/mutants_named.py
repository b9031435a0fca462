"""Each mutant with the test of the library that names its fault, and some of the words of the report. The times are
those of the tables: docs/TICK.md says what follows from them."""

NAMED = {
    "yellow-short": ("yellow-and-red-clearance", "its yellow change lasts 3.8 s; expected 4.0 s"),
    "walk-cut": ("walk-with-green", "its walk lasts 6.0 s; expected 7.0 s"),
    "no-dual-entry": ("dual-entry", "phase 8 still shows red at 21.6 s; expected green since 21.6 s"),
    "barrier-crossed": ("barrier", "phase 1 green and phase 8 yellow together; the plan has them in conflict"),
    "offset-late": ("offset", "coordSyncStatus is 1 s at 8.9 s; expected 0 s after local zero"),
    "download-in-parts": ("staged-download-in-force", "phase 2 still shows red at 37.1 s; expected green since 37.1 s"),
    "preempt-cuts-yellow": ("preempt-entry-in-clearance", "its yellow change lasts 1.6 s; expected 4.0 s"),
    "counter-skips-anywhere": ("correction-shortway", "coordSyncStatus is 26 s at 29.3 s; expected 25 s"),
    "no-red-revert": ("red-revert", "phase 2 turns to green at 21.7 s; expected at 26.6 s"),
    "minimum-short": ("minimum-green", "its green lasts 9.0 s; expected 10.0 s"),
    "gap-late": ("gap", "phase 4 still shows green at 37.0 s; expected yellow change since 37.0 s"),
    "maximum-from-green": ("maximum", "its green lasts 15.0 s; expected 19.4 s"),
}
