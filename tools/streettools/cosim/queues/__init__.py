"""Traffic that waits in queues, without SUMO (docs/QUEUES.md)."""
