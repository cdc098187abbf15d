"""Where the packages stand, in a clone of the repository or installed, and what they find there."""

from __future__ import annotations

import os
import sys
from pathlib import Path

PACKAGES = Path(__file__).resolve().parent.parent
LAUNCHER = PACKAGES / "run"

# The top of the clone. Installed tools have none, unless the environment names one.
TOP = Path(os.environ.get("SOZHIPEN_CLONE") or PACKAGES.parent).resolve()
BUILT = TOP / "crates" / "replay_main" / "out" / "replay_main"
BUILT_DESK = TOP / "crates" / "desk_main" / "out" / "desk_main"


def command_of(tool: str) -> list[str]:
    """The words by which another process runs a tool."""
    return [sys.executable, *([str(LAUNCHER)] if LAUNCHER.is_file() else ["-m", "sozhipen_tools"]), tool]


def clone() -> Path:
    """The top of the clone, for a tool that looks into it; the tool ends where there is none."""
    if not (TOP / "crates.txt").is_file():
        print("this wants a clone of the repository: the environment variable SOZHIPEN_CLONE is to name its top",
              file=sys.stderr)
        raise SystemExit(2)
    return TOP
