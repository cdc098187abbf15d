"""Those that answer a script: the released program, the built one, the second evaluator, and the checked program."""

from __future__ import annotations

import hashlib
import os
import shutil
import subprocess
import sys
import tempfile
from pathlib import Path
from typing import BinaryIO, Iterable, Optional

from ..places import BUILT, TOP
from ..reference import live
from ..reference.meaning.program import Program
from ..reference.replay import Asked, mode_text, put, scripted
from ..release.folder import STATIC, Release, fitting

CRATE = TOP / "crates" / "replay_main"
# The checksum of the program that passed the gate, which .ci/run writes.
CHECKSUM = BUILT.with_name("proved.sha256")


def tell(text: str) -> None:
    print(f"try: {text}", file=sys.stderr, flush=True)


# ---- the released program


def starts(program: Path) -> bool:
    """Whether this machine can start a program: not where its C library is older than the one that it wants."""
    try:
        return subprocess.run([str(program), "--version"], stdin=subprocess.DEVNULL, stdout=subprocess.DEVNULL,
                              stderr=subprocess.DEVNULL, check=False).returncode == 0
    except OSError:
        return False


def released_program() -> tuple[Optional[Path], str]:
    """The released program that is of the sources of this clone and can be started, and what it is."""
    release: Optional[Release] = fitting()
    if release is None:
        return None, "there is no release of these sources"
    for name in ("replay", f"replay{STATIC}"):
        if release.is_whole(name) and starts(release.folder / name):
            return release.folder / name, f"release/{name}, {release.of.get('build')}, of these sources"
    return None, "the released programs are not as they were released, or cannot be started here"


# ---- the built program


def sources() -> Iterable[Path]:
    yield TOP / "crates.txt"
    for folder, inner, names in os.walk(TOP / "crates"):
        inner[:] = [name for name in inner if name != "out"]
        yield from (Path(folder, name) for name in names if name.endswith((".rt", ".antt")) or name == "crates.txt")


def built_is_current() -> bool:
    """Whether a built program is there, and newer than every source."""
    if not os.access(BUILT, os.X_OK):
        return False
    built = BUILT.stat().st_mtime
    return all(source.stat().st_mtime <= built for source in sources() if source.exists())


def name_of_built() -> str:
    """What the built program is: the proved one where it has passed the gate as it stands."""
    try:
        passed = CHECKSUM.read_text(encoding="ascii").split()[:1]
    except (OSError, ValueError):
        passed = []
    is_proved = passed == [hashlib.sha256(BUILT.read_bytes()).hexdigest()]
    return "the proved program" if is_proved else "a built program, of which it is not known that it passed the gate"


def by_built(words: list[str], script: Optional[BinaryIO], program: Path = BUILT) -> int:
    status = subprocess.run([str(program), *words], stdin=script or subprocess.DEVNULL).returncode
    return status if status >= 0 else 128 - status


# ---- the second evaluator


def by_evaluator(program: Program, asked: Asked, script: Optional[BinaryIO]) -> int:
    """What the program answers on an accepted rule file: the lines of a script one by one."""
    if script is None:
        put(mode_text(program, asked.mode))
        return 0
    return scripted(program, asked, script.read) if asked.mode == "save" else live.scripted(program, asked, script)


# ---- the checked program


def checked_is_there() -> bool:
    return shutil.which("rt") is not None


def by_checked(options: list[str], rules: Path, script: Optional[BinaryIO]) -> int:
    """The checked run; what `rt try` says is shown only where the run did not end by itself."""
    with tempfile.TemporaryDirectory(prefix="try-") as folder:
        copy = Path(folder, "script")
        copy.write_bytes(script.read() if script is not None else b"")
        words = ["rt", "try", "--data", f"rules.drl={rules.resolve()}", "--", *options, "rules.drl"]
        with copy.open("rb") as lines:
            done = subprocess.run(words, cwd=CRATE, stdin=lines, stderr=subprocess.PIPE)
    said = done.stderr.decode("utf-8", "replace")
    if (said.splitlines() or [""])[-1].startswith("run=ended "):
        return done.returncode
    sys.stderr.write(said)
    if done.returncode == 6:
        tell("no answer: the checked run has 60 s (some 50,000 lines without joins) and 1 MiB of output, and shows "
             "nothing past either.")
        tell('A rule that makes itself pending again looks like that: write {"do":"fire","max":100} while you try.')
        tell("The proved program has neither limit: `rt ci` builds it (README.md, Commands).")
    else:
        tell(f"the checked run did not end by itself: the status {done.returncode} is that of rt try, not of the "
             "program.")
    return done.returncode
