"""Cases drawn at random: scenarios with all that there is, field files, streets, traces in other orders, and all of
these damaged."""
