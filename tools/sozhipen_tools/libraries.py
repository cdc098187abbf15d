"""Gives the crates of a clone the libraries that `rt ci` has proved on this machine.

In a fresh clone `rt check` first proves each library below a crate anew, though `rt ci` has kept it: an hour for the
highest crates. This links, lowest first, what was kept of each crate over what was given below it, and says which
crates it had nothing for. It proves nothing: what it gives is what `rt ci` itself would take. It uses inner parts of
the kit's command `rt` (kit 13f), and stops where these are others.
"""

from __future__ import annotations

import argparse
import os
import shutil
import sys
from importlib.machinery import SourceFileLoader
from importlib.util import module_from_spec, spec_from_loader
from pathlib import Path
from types import ModuleType
from typing import Any

from .words import Parser


class OtherKit(Exception):
    """There is no `rt`, or its inner parts are others."""


def module_of(name: str, path: Path) -> ModuleType:
    """The module of a Python file that need not be named as one."""
    loader = SourceFileLoader(name, str(path))
    spec = spec_from_loader(name, loader)
    if spec is None:
        raise OtherKit(f"{path} is no Python file")
    module = module_from_spec(spec)
    sys.modules[name] = module
    loader.exec_module(module)
    return module


def command() -> ModuleType:
    """The command `rt`, as a module."""
    path = shutil.which("rt")
    if path is None:
        raise OtherKit("rt is not on the PATH")
    sys.dont_write_bytecode = True
    return module_of("rt_command", Path(path).resolve())


def library_of(crate: Any) -> Path:
    """The folder of a crate's library."""
    return Path(crate.folder, "out", "rlib")


def has_library(kept: Any, crate: Any) -> bool:
    """Whether the crate has the library that was kept, put in the place of another one, or else one built there."""
    key = kept.key(crate)
    if Path(kept.place(crate, False, key)).is_dir():
        shutil.rmtree(library_of(crate), ignore_errors=True)
        return bool(kept.give(crate, False, key))
    return bool(crate.is_built())


def give(rt: ModuleType, clone: Path) -> tuple[list[str], list[str]]:
    """Gives the crates of the clone what was kept of them; their names, and those for which there was nothing."""
    os.chdir(clone)
    crates = rt.rtlib.crates_below(str(clone))
    kept = rt.Kept(crates)
    given: list[str] = []
    left: list[str] = []
    for crate in crates:
        if not crate.is_program and all(it.name in given for it in crate.deps) and has_library(kept, crate):
            kept.is_built(crate)
            library_of(crate).joinpath("stamp").write_text(crate.stamp(), encoding="utf-8")
            given.append(crate.name)
        else:
            left.append(crate.name)
    return given, left


def main() -> int:
    parser = Parser(prog="libraries", description=__doc__, formatter_class=argparse.RawDescriptionHelpFormatter)
    parser.add_argument("clone", type=Path, metavar="CLONE", help="the top of the clone")
    words = parser.parse_args()
    clone = words.clone.resolve()
    if not (clone / "crates.txt").is_file():
        print(f"libraries: {words.clone} is no clone: it has no crates.txt", file=sys.stderr)
        return 2
    try:
        given, left = give(command(), clone)
    except (OtherKit, AttributeError, OSError) as error:
        print(f"libraries: {error}", file=sys.stderr)
        return 2
    print(f"given: {len(given)}")
    print(f"to be proved: {' '.join(left)}")
    return 0


if __name__ == "__main__":
    sys.exit(main())
