"""In which ways greens end, by the words of the report, in the order of its columns."""

ENDINGS = ("gap", "maximum", "force-off", "yield", "split filled", "priority", "seek", "preempt", "ending", "not told")
