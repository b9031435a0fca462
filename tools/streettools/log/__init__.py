"""Logs of controllers in the field: read, judged, replayed, compared with a run of the bench."""
