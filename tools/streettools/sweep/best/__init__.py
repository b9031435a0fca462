"""`./arterial sweep best`: looks for the plan of a study that does best, by runs of the program."""
