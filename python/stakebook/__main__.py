"""`python3 -m stakebook` is the command `stake`."""

import sys

from .command import main

if __name__ == "__main__":
    sys.exit(main())
