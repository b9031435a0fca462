"""The model's command line: the words of the program, with its bytes, statuses and lines on standard error.

    python3 -m model run < scenarios/detectors.json
    python3 -m model check < trace
    python3 -m model band < scenarios/street.bands

README.md and docs/COMMANDS.md tell what each command does. `run --workers N` gives the serial order, one of those
that it may give.
"""

import sys

from model.commands import main

if __name__ == "__main__":
    sys.exit(main(sys.argv[1:]))
