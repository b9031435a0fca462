"""What the tools share: reading traces, finding the program, words of the command line, exit statuses, files that are
written whole."""
