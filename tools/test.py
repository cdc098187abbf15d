#!/usr/bin/env python3
"""Runs the tests of the tools: python3 tools/test.py [--fast] [NAME ..]"""

import subprocess
import sys
from pathlib import Path

if __name__ == "__main__":
    sys.exit(subprocess.call([sys.executable, str(Path(__file__).resolve().parent / "run"), "testing", *sys.argv[1:]]))
