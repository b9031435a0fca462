"""Tests of what all tools share."""
