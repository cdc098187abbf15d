"""Runs a tool by its name: `python3 -m sozhipen_tools NAME [WORDS]`, and `tools/run NAME [WORDS]` in a clone.

NAME is a module of this package, as reference.replay, or `sozhipen` for the client's command. Without a name the tools
are listed.
"""

from __future__ import annotations

import ast
import re
import runpy
import sys
from difflib import get_close_matches
from pathlib import Path

HERE = Path(__file__).resolve().parent
CLIENT = HERE.parent / "sozhipen" / "__main__.py"
RUNS_ALONE = '\nif __name__ == "__main__":\n'


def name_of(path: Path) -> str:
    """The name of a tool by its file: that of its package where the file is the package's main module."""
    parts = path.relative_to(HERE).with_suffix("").parts
    return ".".join(parts[:-1] if parts[-1] == "__main__" else parts)


def tools() -> dict[str, Path]:
    """The files of the tools by their names: the modules that can be run, the client first."""
    found = {name_of(path): path for path in sorted(HERE.rglob("*.py"))
             if path.parent != HERE or path.name != "__main__.py"
             if RUNS_ALONE in path.read_text(encoding="utf-8")}
    return {"sozhipen": CLIENT, **found}


def is_tool(name: str) -> bool:
    """Whether there is a tool of this name."""
    path = HERE.joinpath(*name.split("."))
    files = [CLIENT] if name == "sozhipen" else [path.with_suffix(".py"), path / "__main__.py"]
    return any(file.is_file() and RUNS_ALONE in file.read_text(encoding="utf-8") for file in files)


def listed() -> str:
    """A line for each tool, with the first sentence of what its file says of it."""
    known = tools()
    width = max(map(len, known))
    return "".join(f"{name:{width}}  {head_of(path)}\n" for name, path in known.items())


def head_of(path: Path) -> str:
    """The first sentence of a file's documentation, up to a colon."""
    text = ast.get_docstring(ast.parse(path.read_text(encoding="utf-8"))) or ""
    return re.split(r"[:.](?:\s|$)", " ".join(text.split()))[0]


def main(words: list[str]) -> int:
    if not words or words[0] in ("-h", "--help"):
        print(f"usage: run NAME [WORDS]; NAME --help tells the words of a tool\n\n{listed()}", end="")
        return 0
    name = words[0]
    if not is_tool(name):
        near = get_close_matches(name, tools(), 1)
        print(f"run: there is no tool {name}" + (f": {near[0]}?" if near else ""), file=sys.stderr)
        return 2
    sys.argv[1:] = words[1:]
    runpy.run_module(name if name == "sozhipen" else f"sozhipen_tools.{name}", run_name="__main__", alter_sys=True)
    return 0


if __name__ == "__main__":
    sys.exit(main(sys.argv[1:]))
