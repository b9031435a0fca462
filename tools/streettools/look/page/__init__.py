"""A trace as a page: one file that a browser opens without a network, with data, drawing library and code in it."""
