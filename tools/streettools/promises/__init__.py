"""What the contracts promise, as digests that a change of a statement has to touch: `edits/promises`, `edits/try`."""
