"""`./arterial plan`: timing sheets as scenarios and back, what is wrong with them in words, and how to load them.
Nothing of it is proved."""
