"""Makes the release of the proved build of this clone.

    tools/run release.make [--from CLONE] [--page PAGE] [--unproved] [FOLDER]

It takes from crates/replay_main/out and crates/desk_main/out of the clone what `rt ci` left there: the programs, and
their object files, of which it links the static programs and the library. The page is made of the LLVM module of `desk`
(tools/run release.page). FOLDER is release/ if none is given. A build is taken as proved where it
has passed .ci/run, which keeps the checksum of each program in proved.sha256 beside it; --unproved takes any, and says
so in SOURCES.
"""

from __future__ import annotations

import re
import shutil
import subprocess
import sys
import tempfile
from pathlib import Path
from typing import Optional

from ..places import clone
from ..words import Parser
from .folder import HEADER, LIBRARY, OF, PAGE, PROGRAMS, STATIC, SUMS
from .sources import sha256, sum_of

LINE = re.compile(r"GLIBC_([0-9.]+)")


def said(*words: str) -> str:
    return subprocess.run(words, stdout=subprocess.PIPE, text=True, check=True).stdout.strip()


def kit() -> Path:
    return Path(said("rt", "doc")).parent


def out_of(built: Path, program: str) -> Path:
    """The folder in which the build of a program stands."""
    return built / "crates" / f"{program}_main" / "out"


def is_proved(built: Path) -> bool:
    """Whether the build has passed the gate as it stands."""
    outs = {f"{name}_main": out_of(built, name) for name in PROGRAMS}
    try:
        return all((out / "proved.sha256").read_text(encoding="ascii").split()[:1] == [sha256(out / name)]
                   for name, out in outs.items())
    except (OSError, ValueError):
        return False


def compiler() -> str:
    """The compiler that links the library, and the C library of the static programs."""
    return f"{said('cc', '--version').splitlines()[0]}, {said('ldd', '--version').splitlines()[0]}"


def link_static(program: Path, out: Path) -> None:
    """Links the object file of a program with all that it calls."""
    subprocess.run(["cc", "-static", "-s", "-o", out, program, kit() / "c" / "libos_c.a", kit() / "c" / "liblibc_c.a",
                    "-Wl,--gc-sections,--build-id=none"], check=True)


def link_library(top: Path, program: Path, out: Path) -> None:
    """Links the library of the object file of `desk`."""
    with tempfile.TemporaryDirectory() as folder:
        subprocess.run([top / "faces" / "c" / "build.sh", program, folder], check=True)
        shutil.copy2(Path(folder, LIBRARY), out)


def needed(program: Path) -> str:
    """The C library from which on a program runs."""
    versions = {tuple(map(int, it.split("."))) for it in LINE.findall(said("readelf", "-V", str(program)))}
    return "glibc " + ".".join(map(str, max(versions)))


def put_programs(top: Path, built: Path, folder: Path) -> dict[str, str]:
    """Puts programs, library and header into the folder; what is told of them."""
    told = {}
    for name in PROGRAMS:
        out = out_of(built, name)
        shutil.copy2(out / f"{name}_main", folder / name)
        link_static(out / f"{name}_main.o", folder / f"{name}{STATIC}")
        told[f"{name}.o"] = sha256(out / f"{name}_main.o")
        (folder / name).chmod(0o755)
    link_library(top, out_of(built, "desk") / "desk_main.o", folder / LIBRARY)
    shutil.copy2(top / "faces" / "c" / HEADER, folder / HEADER)
    return told


def main() -> int:
    parser = Parser(description="Makes the release of the proved build of this clone.")
    parser.add_argument("--from", dest="built", metavar="CLONE", type=Path, help="the clone that has the build")
    parser.add_argument("--page", type=Path, metavar="PAGE", help="a page that release.page has made")
    parser.add_argument("--unproved", action="store_true", help="a build that has not passed the gate, for trying")
    parser.add_argument("folder", metavar="FOLDER", type=Path, nargs="?", help="release/ if it is not given")
    asked = parser.parse_args()
    top = clone()
    built, folder = asked.built or top, asked.folder or top / "release"
    if not asked.unproved and not is_proved(built):
        parser.error(f"the build in {built} has not passed .ci/run")
    if sum_of(built) != (sources := sum_of(top)):
        parser.error(f"the sources in {built} are others than those of this clone")
    for name in PROGRAMS:
        for path in (out_of(built, name) / f"{name}_main", out_of(built, name) / f"{name}_main.o"):
            if not path.is_file():
                parser.error(f"{path} is not there: `rt run` in crates/{name}_main makes it")
    folder.mkdir(parents=True, exist_ok=True)
    told = {"sources": sources, "build": "not proved" if asked.unproved else "proved", "kit": said("rt", "version"),
            "compiler": compiler(), **put_programs(top, built, folder), "needs": needed(folder / "replay")}
    put_page(asked.page, folder)
    names = [*PROGRAMS, *(name + STATIC for name in PROGRAMS), LIBRARY, HEADER, PAGE]
    (folder / OF).write_text("".join(f"{word} {text}\n" for word, text in told.items()), encoding="utf-8")
    (folder / SUMS).write_text("".join(f"{sha256(folder / it)}  {it}\n" for it in names if (folder / it).is_file()),
                               encoding="utf-8")
    print((folder / OF).read_text(encoding="utf-8") + (folder / SUMS).read_text(encoding="utf-8"), end="")
    return 0


def put_page(page: Optional[Path], folder: Path) -> None:
    """Puts the page into the folder, where one is given."""
    if page is not None and page.resolve() != (folder / PAGE).resolve():
        shutil.copy2(page, folder / PAGE)


if __name__ == "__main__":
    sys.exit(main())
