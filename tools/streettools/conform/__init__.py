"""Tests of a controller at an address: the same calls for it and for the proved cabinet, and where the two differ."""
