"""Holds the release against the build of this clone.

    tools/run release.check [--from CLONE] [FOLDER]

Each file of the release has to have its checksum. Where the release is of the sources that stand here, the programs and
object files of the build have to have the bytes of the release; so have the static programs and the library, where the
compiler is the one by which they were linked. What is not built is told, and not held against it: `rt ci` leaves no
object file of a program that it had kept. The page is held against its checksum alone: tools/run release.page makes it
anew. The status is 0 where all is as it has to be, or the release is of other sources; 1 where it is not.
"""

from __future__ import annotations

import sys
import tempfile
from pathlib import Path

from ..places import clone
from ..words import Parser
from .folder import LIBRARY, PROGRAMS, STATIC, Release, release_in
from .make import compiler, link_library, link_static, out_of
from .sources import sha256, sum_of


class Check:
    """What was found wrong."""

    def __init__(self) -> None:
        self.is_wrong = False

    def wants(self, path: Path, wanted: str, name: str) -> None:
        """A file has to be there with this checksum."""
        found = sha256(path) if path.is_file() else "is not there"
        if found != wanted:
            print(f"release: {name}: OTHER BYTES: {path}: {found}, and not {wanted}")
            self.is_wrong = True

    def wants_if_built(self, path: Path, wanted: str, name: str) -> bool:
        """The same of a file of the build, where it is there; whether it is."""
        if path.is_file():
            self.wants(path, wanted, name)
        else:
            print(f"release: {name}: not compared, for {path} is not there")
        return path.is_file()


def check_linked(check: Check, release: Release, top: Path, built: Path) -> None:
    """Links library and static programs anew."""
    with tempfile.TemporaryDirectory() as temporary:
        folder = Path(temporary)
        link_library(top, out_of(built, "desk") / "desk_main.o", folder / LIBRARY)
        for name in PROGRAMS:
            link_static(out_of(built, name) / f"{name}_main.o", folder / f"{name}{STATIC}")
        for name in [LIBRARY, *(name + STATIC for name in PROGRAMS)]:
            check.wants(folder / name, release.sums.get(name, "none"), f"{name}, linked anew")


def check_build(check: Check, release: Release, top: Path, built: Path) -> None:
    """Holds a build of the sources of the release against it."""
    has_objects = True
    for name in PROGRAMS:
        out = out_of(built, name)
        check.wants_if_built(out / f"{name}_main", release.sums.get(name, "none"), f"{name}, as it was built")
        has_objects &= check.wants_if_built(out / f"{name}_main.o", release.of.get(f"{name}.o", "none"),
                                            f"{name}.o, as it was built")
    if check.is_wrong or not has_objects:
        return
    if release.of.get("compiler") == compiler():
        check_linked(check, release, top, built)
    else:
        print(f"release: the library and the static programs are not linked anew: they are of {release.of['compiler']}")


def main() -> int:
    parser = Parser(description="Holds the release against the build of this clone.")
    parser.add_argument("--from", dest="built", metavar="CLONE", type=Path, help="the clone that has the build")
    parser.add_argument("folder", metavar="FOLDER", type=Path, nargs="?", help="release/ if it is not given")
    asked = parser.parse_args()
    top = clone()
    built, folder = asked.built or top, asked.folder or top / "release"
    release, check = release_in(folder), Check()
    if release is None:
        print(f"release: there is none in {folder}")
        return 0
    for name, wanted in release.sums.items():
        check.wants(folder / name, wanted, name)
    if release.of.get("sources") != sum_of(top):
        print("release: it is of other sources than those that stand here, and is not held against their build")
    else:
        check_build(check, release, top, built)
    if not check.is_wrong:
        print("release: no byte is another")
    return 1 if check.is_wrong else 0


if __name__ == "__main__":
    sys.exit(main())
