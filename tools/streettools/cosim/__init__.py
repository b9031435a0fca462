"""Traffic under the cabinets of a session: what simulates it, what is recorded of it, its results."""
