"""Tests of the editor of plans."""
