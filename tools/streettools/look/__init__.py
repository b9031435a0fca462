"""Pictures, a timing report and an event log of a trace that `arterial run` wrote; `./look` is the command."""
