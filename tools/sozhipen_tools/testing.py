"""Runs the tests of the tools, module by module.

    python3 tools/test.py              all of them
    python3 tools/test.py --fast       those that take a minute in all
    python3 tools/test.py NAME..       these, as test_client

`python3 -m sozhipen_tools.testing` runs those of a clone over the installed packages; SOZHIPEN_CLONE names its top.
"""

from __future__ import annotations

import sys
import unittest
from collections import Counter
from pathlib import Path

from .places import clone
from .words import Parser

# The modules that are left out where a minute is all there is: runs over loads and cut scripts, of Java, of brokers with
# kills, and of all that stands on the pages.
SLOW = ("test_cuts", "test_java", "test_measure", "test_pages", "test_stream_trial")


def asked(words: list[str], known: list[str]) -> list[str]:
    """The names of the modules that the words ask for."""
    parser = Parser(prog="test.py", description="Runs the tests of the tools.")
    parser.add_argument("names", metavar="NAME", nargs="*",
                        help="a module of tests, as test_client; without one all of them")
    parser.add_argument("--fast", action="store_true", help="leave out the modules that take long: " + ", ".join(SLOW))
    options = parser.parse_args(words)
    for name in options.names:
        if name not in known:
            parser.error(f"there is no {name}; there are {', '.join(known)}")
    return [name for name in options.names or known if not (options.fast and name in SLOW)]


def passes(folder: Path, name: str) -> bool:
    """Runs the tests of a module."""
    print(f"{name}:", file=sys.stderr, flush=True)
    suite = unittest.TestLoader().discover(str(folder), f"{name}.py")
    result = unittest.TextTestRunner().run(suite)
    for reason, many in Counter(reason for _, reason in result.skipped).items():
        print(f"{name}: {many} skipped: {reason}", file=sys.stderr, flush=True)
    return result.wasSuccessful()


def main() -> int:
    folder = clone() / "tools" / "tests"
    names = asked(sys.argv[1:], sorted(path.stem for path in folder.glob("test_*.py")))
    failed = [name for name in names if not passes(folder, name)]
    print(f"failed: {', '.join(failed)}" if failed else f"all passed: {', '.join(names)}", flush=True)
    return 1 if failed else 0


if __name__ == "__main__":
    sys.exit(main())
