"""Wrong bodies behind the gate: wrong-bodies/NAME/*.edit, each an edit of one line of the crate NAME that its contracts
are to refuse.

    tools/wrong_bodies NAME..    tries those of these crates, in a copy, by `rt must-fail` over what `rt check` kept on
                                 this machine
    tools/wrong_bodies --all     tries those of every crate that has some
    tools/wrong_bodies --look    only looks whether each quoted line still stands, once, in its file

Prints what `rt must-fail` says. The status is 0 where each was refused (or, with --look, can be applied), 1 where one
was not or is a bad edit, and 2 where the words are off.
"""

from __future__ import annotations

import argparse
import shutil
import subprocess
import sys
import tempfile
from pathlib import Path
from typing import Optional

from .places import clone
from .words import Parser

ROOM = "wrong-bodies"
# What the copy needs beside the crates.
FILES = ["crates.txt", "HANDLES"]


def crates_with_some() -> list[str]:
    return sorted(folder.name for folder in (clone() / ROOM).iterdir() if any(folder.glob("*.edit")))


def changes_of(edit: Path) -> list[tuple[str, str, str]]:
    """The changes of an edit, in their order: the file, the old text and the new one."""
    changes: list[tuple[str, str, str]] = []
    change: dict[str, str] = {}
    for line in edit.read_text(encoding="utf-8").splitlines():
        for word in ("file", "old", "new"):
            if line.startswith(f"{word}: "):
                change[word] = line[len(word) + 2 :]
        if len(change) == 3:
            changes.append((change["file"], change["old"], change["new"]))
            change = {"file": change["file"]}
    return changes


def fault_of(edit: Path, crate: str) -> Optional[str]:
    """Why an edit cannot be applied to the crate as it stands; nothing where it can."""
    texts: dict[str, str] = {}
    changes = changes_of(edit)
    if not changes:
        return "it has no lines 'file: ', 'old: ' and 'new: '"
    for file, old, new in changes:
        path = clone() / "crates" / crate / file
        if file not in texts and not path.is_file():
            return f"there is no file {file}"
        text = texts.setdefault(file, path.read_text(encoding="utf-8"))
        if text.count(old) != 1:
            return f"its old text stands {text.count(old)} times in {file}"
        texts[file] = text.replace(old, new)
    return None


def look(crates: list[str]) -> int:
    """Says which edits cannot be applied, and returns how many these are."""
    faults = 0
    for crate in crates:
        for edit in sorted((clone() / ROOM / crate).glob("*.edit")):
            fault = fault_of(edit, crate)
            if fault:
                print(f"wrong-bodies/{crate}/{edit.name} cannot be applied: {fault}")
                faults += 1
    return faults


def copy_crates(room: Path) -> None:
    """Copies what the repository has of its crates, without their folders out/, and without the edits of the gate."""
    for name in FILES:
        shutil.copy(clone() / name, room / name)
    skipped = shutil.ignore_patterns("out", "must-fail")
    shutil.copytree(clone() / "crates", room / "crates", ignore=skipped)


def tried(crates: list[str]) -> int:
    """Tries the wrong bodies of these crates in a copy, and returns the status of the judge."""
    with tempfile.TemporaryDirectory(prefix="wrong-bodies-") as name:
        room = Path(name)
        copy_crates(room)
        for crate in crates:
            shutil.copytree(clone() / ROOM / crate, room / "crates" / crate / "must-fail")
        return subprocess.run(["rt", "must-fail", *crates], cwd=room, check=False).returncode


def asked(known: list[str]) -> argparse.Namespace:
    parser = Parser(prog="wrong_bodies", description=__doc__, formatter_class=argparse.RawDescriptionHelpFormatter)
    parser.add_argument("crates", metavar="NAME", nargs="*", help="a crate")
    parser.add_argument("--all", action="store_true", help="try those of every crate that has some")
    parser.add_argument("--look", action="store_true", help="only look whether each quoted line still stands")
    words = parser.parse_args()
    if bool(words.crates) + words.all + words.look != 1:
        parser.error("crates, --all or --look is wanted")
    unknown = [crate for crate in words.crates if crate not in known]
    if unknown:
        parser.error(f"there are no wrong bodies of {' '.join(unknown)} in wrong-bodies/")
    return words


def main() -> int:
    known = crates_with_some()
    words = asked(known)
    if words.look:
        faults = look(known)
        edits = sum(1 for _ in (clone() / ROOM).glob("*/*.edit"))
        print(f"wrong bodies behind the gate: {edits}, of which {faults} cannot be applied")
        return 1 if faults else 0
    crates = words.crates or known
    faults = look(crates)
    status = tried(crates)
    return 1 if faults or status else 0


if __name__ == "__main__":
    sys.exit(main())
