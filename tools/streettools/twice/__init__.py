"""Lemmas and definitions of the crates that have the same text except for names."""
