"""`python3 -m bpfmap`: calls of a map server from the command line."""

import sys

from .command import main

if __name__ == "__main__":
    sys.exit(main())
