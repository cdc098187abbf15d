"""The client as a command: python3 -m sozhipen RULES < SCRIPT"""

import sys

from .command import main

if __name__ == "__main__":
    sys.exit(main(sys.argv[1:]))
