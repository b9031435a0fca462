"""Pictures of a run with traffic (docs/QUEUES.md)."""
