"""What several tests want: the clone that they stand in, and what `./try` prints."""

import contextlib
import importlib.util
import io
import os
import shlex
import subprocess
import sys
import tempfile
from pathlib import Path
from types import ModuleType
from typing import IO, Iterator
from unittest import mock

TOP = Path(__file__).resolve().parents[2]
# Installed tools look into this clone too.
os.environ.setdefault("SOZHIPEN_CLONE", str(TOP))
# The folder whose scripts stand beside the packages and are not installed with them.
LIVE = TOP / "examples" / "live"

from sozhipen_tools.places import BUILT, BUILT_DESK, PACKAGES, command_of  # noqa: E402
from sozhipen_tools.running import try_rules  # noqa: E402

# The programs that tests run where they are there; REPLAY_PROGRAM and DESK_PROGRAM name others.
PROGRAM = os.environ.get("REPLAY_PROGRAM", str(BUILT))
DESK_PROGRAM = os.environ.get("DESK_PROGRAM", str(BUILT_DESK))


def with_packages() -> dict[str, str]:
    """The environment of a script that imports the packages that are tested."""
    return {**os.environ, "PYTHONPATH": str(PACKAGES)}


def live(name: str) -> ModuleType:
    """A script of examples/live as a module; another one that it imports has to be loaded before."""
    spec = importlib.util.spec_from_file_location(name, LIVE / f"{name}.py")
    assert spec is not None and spec.loader is not None
    module = sys.modules[name] = importlib.util.module_from_spec(spec)
    spec.loader.exec_module(module)
    return module


def saves(desk: str) -> bool:
    """Whether there is this program, and it saves while it runs."""
    if not os.access(desk, os.X_OK):
        return False
    with tempfile.TemporaryDirectory() as folder:
        command = [desk, "--image", str(Path(folder, "image")), str(TOP / "examples" / "dear.drl")]
        return b"saved" in subprocess.run(command, input=b'{"do":"save"}\n', capture_output=True, check=False).stdout


def evaluator(folder: Path, tool: str = "reference.live") -> Path:
    """A program in this folder that is the second evaluator."""
    program = folder / "evaluator"
    program.write_text(f'#!/bin/sh\nexec {shlex.join(command_of(tool))} "$@"\n', encoding="utf-8")
    program.chmod(0o755)
    return program


@contextlib.contextmanager
def standard_output(into: IO[bytes]) -> Iterator[None]:
    """What is written to the descriptor 1, as the program's lines are, goes to this file."""
    sys.stdout.flush()
    kept = os.dup(1)
    os.dup2(into.fileno(), 1)
    try:
        yield
    finally:
        sys.stdout.flush()
        os.dup2(kept, 1)
        os.close(kept)


def tried(*words: object, script: str = "") -> tuple[str, str, int]:
    """What `./try` prints, what it says, and its status."""
    said = io.StringIO()
    with tempfile.TemporaryFile() as lines, tempfile.TemporaryFile() as output, contextlib.redirect_stderr(said):
        lines.write(script.encode())
        lines.seek(0)
        with mock.patch("sys.argv", ["try", *map(str, words)]), mock.patch("sys.stdin", io.TextIOWrapper(lines)), \
                standard_output(output):
            status = try_rules.main()
        output.seek(0)
        return output.read().decode(), said.getvalue(), status
