"""Run the command-line wrapper: `python -m popsample`."""

import sys

from ._wrapper.front import main

if __name__ == "__main__":
    sys.exit(main())
