"""A page for one rule file and one script, on this machine alone:

    tools/run workbench RULES SCRIPT [--port N] [--seconds N] [--program PROGRAM]

It prints the address to open in a browser, and serves it until Ctrl+C. docs/TOOLS.md says what the page shows.
"""

from __future__ import annotations

import argparse
import os
import sys
from pathlib import Path

from ..timeline.page import title_of
from ..words import Parser
from .server import Refused, Workbench, WorkbenchServer


def asked() -> argparse.Namespace:
    parser = Parser(prog="workbench", description="Serves a page for a rule file and a script on 127.0.0.1.")
    parser.add_argument("rules", type=Path, help="the rule file; it may be new")
    parser.add_argument("script", type=Path, help="the script; it may be new")
    parser.add_argument("--port", type=int, default=0, help="without it any that is free")
    parser.add_argument("--seconds", type=int, default=20, metavar="N",
                        help="how long a run may take, from 1 to 600 (20)")
    parser.add_argument("--program", type=Path,
                        help="a built program; without it that of this clone, or the second evaluator")
    options = parser.parse_args()
    if options.program and not (options.program.is_file() and os.access(options.program, os.X_OK)):
        parser.error(f"there is no program {options.program}")
    if not 1 <= options.seconds <= 600:
        parser.error("a run takes from 1 to 600 seconds")
    return options


def main() -> int:
    options = asked()
    workbench = Workbench(options.rules, options.script, title_of(options.rules), options.seconds, options.program)
    try:
        workbench.texts()
        server = WorkbenchServer(workbench, options.port)
    except (Refused, OSError, OverflowError) as error:
        print(f"workbench: {error}", file=sys.stderr)
        return 1
    print(server.address, flush=True)
    try:
        server.serve_forever()
    except KeyboardInterrupt:
        return 0
    finally:
        server.server_close()
    return 0


if __name__ == "__main__":
    sys.exit(main())
