"""The command `./arterial sweep`: many variants of a scenario, run on one machine or on several, measured into one
table."""
