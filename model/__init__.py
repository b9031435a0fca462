"""A second reading of the documents: a plain, slow program that does what `arterial` does. model/README.md says how to
read it.

Some values are kept so that the cost of a long run isn't quadratic. The heads of these files say what is kept, and why
it equals looking back: past.py (runs of colours, signals, modes and counts), counter.py (the steps of a cycle),
calls.py (calls that last), tables.py (what depends only on tables).
"""
