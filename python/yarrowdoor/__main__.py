"""`python -m yarrowdoor`: the command of the package."""
import sys

from .command.main import main

if __name__ == "__main__":
    sys.exit(main())
