"""Makes the page of the engine: one file of HTML that runs `desk` in a browser.

    tools/run release.page [--from CLONE] [--module MODULE | --object OBJECT] PAGE

It builds the last step of crates/desk_main as `rt run` does, and keeps the LLVM module that the compiler gets. The
module is made for x86-64. WebAssembly with 64-bit addresses has the same sizes and the same order of bytes, so the
module gets the name and layout of that, is compiled by the kit's clang (some five minutes of a processor), and is
linked with faces/page/machine.c. --module takes a module that was kept, --object one that was compiled.
"""

from __future__ import annotations

import base64
import gzip
import json
import re
import shutil
import subprocess
import sys
import tempfile
from pathlib import Path
from typing import Iterator

from ..places import clone
from ..words import Parser
from .make import kit

TARGET = "--target=wasm64-unknown-unknown"
OF_X86 = re.compile(r' sanitize_address| "(?:frame-pointer|probe-stack|stack-probe-size|target-cpu|target-features|'
                    r'tune-cpu)"="[^"]*"')
STACK_BYTES, MEMORY_BYTES = 8 << 20, 4 << 30
KEEPS = """#!/bin/sh
for word in "$@"; do
    case "$word" in *.bc) cp "$word" '{kept}' ;; esac
done
exec '{clang}' "$@"
"""
EXAMPLES = ("smoke", "fraud", "parcels", "plant", "orders", "assembly", "dear", "alarm")
DESKS = ("bus", "callcentre", "water")


def clang(*words: object) -> None:
    subprocess.run([kit() / "toolchain" / "bin" / "clang", "--no-default-config", *map(str, words)], check=True)


# ---- the module of the proved program


def kit_that_keeps(folder: Path, kept: Path) -> Path:
    """The kit by links, with a clang that keeps a copy of the module that it gets; its command `rt`."""
    base, mine = kit(), folder / "kit"
    for inner in ("bin", "toolchain/bin"):
        (mine / inner).mkdir(parents=True)
        for it in (base / inner).iterdir():
            (mine / inner / it.name).symlink_to(it.resolve())
    for it in base.iterdir():
        if it.name not in ("bin", "toolchain"):
            (mine / it.name).symlink_to(it)
    (mine / "toolchain" / "lib").symlink_to(base / "toolchain" / "lib")
    for name in ("rt", "rtlib.py"):  # they look for the kit where they lie themselves
        (mine / "bin" / name).unlink()
        shutil.copy(base / "bin" / name, mine / "bin" / name)
    wrapper = mine / "toolchain" / "bin" / "clang"
    wrapper.unlink()
    wrapper.write_text(KEEPS.format(kept=kept, clang=base / "toolchain" / "bin" / "clang"), encoding="utf-8")
    wrapper.chmod(0o755)
    return mine / "bin" / "rt"


def keep_module(built: Path, folder: Path) -> Path:
    """Builds `desk` of a clone once more, from what its check has kept, and keeps its module. The program has to come
    out as it was."""
    crate, kept = built / "crates" / "desk_main", folder / "module.bc"
    program = crate / "out" / "desk_main"
    before = program.read_bytes()
    command, aside = kit_that_keeps(folder, kept), folder / "aside"
    aside.mkdir()
    for it in (crate / "out").glob("desk_main*"):
        shutil.move(it, aside / it.name)
    with open(crate / "stdin", "rb") as script:
        subprocess.run([command, "run"], cwd=crate, stdin=script, stdout=subprocess.DEVNULL, check=False)
    is_same = program.is_file() and program.read_bytes() == before
    for it in aside.iterdir():
        shutil.move(it, crate / "out" / it.name)
    if not kept.exists() or not is_same:
        raise SystemExit("release.page: the build gave no module, or another program than before")
    return kept


# ---- the same for WebAssembly


def turned(lines: Iterator[str], layout: str) -> Iterator[str]:
    """A module of x86-64 with the name, layout and attributes of the other processor."""
    for line in lines:
        if line.startswith("target datalayout"):
            line = layout
        elif line.startswith("target triple"):
            line = 'target triple = "wasm64-unknown-unknown"\n'
        elif line.startswith("attributes #"):
            line = re.sub(r"\{\s*\}", "{ nounwind }", OF_X86.sub("", line))
        elif "@llvm.x86." in line:
            raise SystemExit(f"release.page: the module has a function of x86-64: {line.strip()[:100]}")
        yield line


def compiled(module: Path, folder: Path) -> Path:
    """The module as an object file for WebAssembly."""
    empty, text, other, done = (folder / name for name in ("empty.c", "module.ll", "wasm.ll", "program.o"))
    empty.write_text("int nothing;\n", encoding="ascii")
    clang(TARGET, "-S", "-emit-llvm", empty, "-o", other)
    layout = next(line for line in other.read_text().splitlines(True) if line.startswith("target datalayout"))
    clang("-O0", "-Xclang", "-disable-llvm-passes", "-S", "-emit-llvm", "-x", "ir", module, "-o", text)
    with open(text, encoding="utf-8", errors="surrogateescape") as lines, \
            open(other, "w", encoding="utf-8", errors="surrogateescape") as out:
        out.writelines(turned(iter(lines), layout))
    clang(TARGET, "-O2", "-mbulk-memory", "-ffunction-sections", "-c", "-x", "ir", other, "-o", done)
    return done


def linked(top: Path, program: Path, folder: Path) -> bytes:
    """The program with its machine as a WebAssembly module without imports."""
    machine, linker, done = folder / "machine.o", folder / "wasm-ld", folder / "sozhipen.wasm"
    clang(TARGET, "-O2", "-Wall", "-Wextra", "-mbulk-memory", "-fno-builtin", "-ffreestanding", "-c",
          top / "faces" / "page" / "machine.c", "-o", machine)
    linker.symlink_to(kit() / "toolchain" / "bin" / "clang")
    options = ["-mwasm64", "--no-entry", "--gc-sections", "-z", f"stack-size={STACK_BYTES}", "--stack-first", "-O2",
               "--strip-all", f"--max-memory={MEMORY_BYTES}"]
    subprocess.run([linker, *options, "-o", done, machine, program], check=True)
    return done.read_bytes()


# ---- the page


def file_of(folder: Path, name: str, title: str) -> dict[str, str]:
    return {"name": title, "rules": (folder / f"{name}.drl").read_text(encoding="utf-8"),
            "script": (folder / f"{name}.jsonl").read_text(encoding="utf-8")}


def page_of(top: Path, module: bytes) -> str:
    """The page with its style, its script, the examples, and the module."""
    parts, examples = top / "faces" / "page", top / "examples"
    files = [*(file_of(examples, name, name) for name in EXAMPLES),
             *(file_of(examples / "desks", name, f"desk: {name}") for name in DESKS)]
    packed = base64.b64encode(gzip.compress(module, 9, mtime=0)).decode()
    pieces = {"@STYLE@": (parts / "page.css").read_text(encoding="utf-8").strip(),
              "@SCRIPT@": (parts / "page.js").read_text(encoding="utf-8").strip(),
              "@FILES@": json.dumps(files).replace("<", "\\u003c"), "@MODULE@": packed}
    page = (parts / "page.html").read_text(encoding="utf-8")
    return re.sub("|".join(pieces), lambda found: pieces[found.group()], page)


def main() -> int:
    parser = Parser(description="Makes the page that runs the engine in a browser.")
    parser.add_argument("--from", dest="built", metavar="CLONE", type=Path, help="the clone that has the build")
    parser.add_argument("--module", type=Path, metavar="MODULE", help="a module that was kept")
    parser.add_argument("--object", type=Path, metavar="OBJECT", help="an object file of a module")
    parser.add_argument("page", metavar="PAGE", type=Path)
    asked = parser.parse_args()
    top = clone()
    with tempfile.TemporaryDirectory() as temporary:
        folder = Path(temporary)
        program = asked.object or compiled(asked.module or keep_module((asked.built or top).resolve(), folder), folder)
        asked.page.write_text(page_of(top, linked(top, program.resolve(), folder)), encoding="utf-8")
    return 0


if __name__ == "__main__":
    sys.exit(main())
