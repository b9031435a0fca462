"""A live cabinet for management software; `./cabinet` is the command."""
