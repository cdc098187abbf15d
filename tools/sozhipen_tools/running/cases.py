"""Runs the scripts of a folder, and tells line by line what differs from what they are to print.

    tools/run running.cases FOLDER [RULES] [--data NAME=FILE ..] [--write]

A case is a script, as `silent`; with `silent.args`, the words of the program, one a line, of which one is the name of a
rule file: behind a `--data`, in the folder, or that of RULES. Without it the rule file is RULES. `silent.stdout` is
what it is to print; where that file is missing, what comes is shown. `--write` writes it, and mends those that differ.
The second evaluator answers. The status is 0 where nothing differs, 1 where something does, 2 where a case cannot be
run.
"""

from __future__ import annotations

import difflib
import sys
from dataclasses import dataclass
from pathlib import Path
from typing import Iterator, Optional

from ..reference.meaning.run import report
from ..reference.replay import BadWords, number, options_and_rules
from ..rulefile import where
from ..words import Parser

OTHERS = {".args", ".stdout", ".status", ".drl", ".md", ".csv", ".out"}
LINES_AROUND = 2


class Unfit(Exception):
    """A case that cannot be run."""


@dataclass(frozen=True)
class Case:
    """A script with its rule file, its limit of firings, and what it is to print; None where nothing says it."""
    name: str
    script: bytes
    rules: Path
    limit: int
    wanted: Optional[bytes]


def scripts_of(folder: Path) -> list[Path]:
    """The cases of a folder: each file that is no companion of one."""
    return sorted(p for p in folder.iterdir() if p.is_file() and p.suffix not in OTHERS and not p.name.startswith("."))


def rules_named(name: str, folder: Path, rules: Optional[Path], data: dict[str, Path]) -> Path:
    if name in data:
        return data[name]
    for path in (folder / name, rules):
        if path is not None and path.name == name and path.is_file():
            return path
    raise Unfit(f"no rule file {name}: give it by --data {name}=FILE, or after the folder")


def limit_and_rules(words_file: Path) -> tuple[int, str]:
    """What the words of a case ask for, one a line: the limit of firings, and the name of the rule file."""
    try:
        options, names = options_and_rules([word for word in words_file.read_text().split("\n") if word])
        limit = number(options.pop("limit", "100000"), 7, 1, 1_000_000)
    except BadWords:
        raise Unfit(f"the words of {words_file.name} are refused") from None
    if options.get("mode", "run") != "run" or len(names) != 1 or "gen" in options:
        raise Unfit(f"{words_file.name} is to name one rule file, and no mode but run")
    return limit, names[0]


def case_of(script: Path, rules: Optional[Path], data: dict[str, Path]) -> Case:
    words_file, wanted = Path(f"{script}.args"), Path(f"{script}.stdout")
    limit, path = 100_000, rules
    if words_file.is_file():
        limit, name = limit_and_rules(words_file)
        path = rules_named(name, script.parent, rules, data)
    if path is None:
        raise Unfit(f"no rule file: there is no {words_file.name}, and none after the folder")
    return Case(script.name, script.read_bytes(), path, limit, wanted.read_bytes() if wanted.is_file() else None)


def text_of(output: bytes) -> list[str]:
    return output.decode("utf-8", "replace").splitlines()


def difference(case: Case, came: bytes) -> Iterator[str]:
    """The lines that differ, with those around them and their numbers in the output."""
    wanted, got = text_of(case.wanted or b""), text_of(came)
    for group in difflib.SequenceMatcher(None, wanted, got, autojunk=False).get_grouped_opcodes(LINES_AROUND):
        for tag, a, a_end, b, b_end in group:
            if tag == "equal":
                yield from (f"   {a + k + 1:5}   {line}" for k, line in enumerate(wanted[a:a_end]))
            else:
                yield from (f"   {a + k + 1:5} - {line}" for k, line in enumerate(wanted[a:a_end]))
                yield from (f"   {b + k + 1:5} + {line}" for k, line in enumerate(got[b:b_end]))


def run_case(case: Case, folder: Path, write: bool) -> str:
    """Runs a case, tells of it, and answers how its output is: expected, differs, or shown where nothing was
    expected."""
    data = case.rules.read_bytes()
    came, status = report(data, case.script, case.limit)
    if status == 3:
        sys.stderr.write(where.report(str(case.rules), data))
    output = "expected" if came == case.wanted else "shown" if case.wanted is None else "differs"
    if write and output != "expected":
        Path(folder, f"{case.name}.stdout").write_bytes(came)
    print(f"case={case.name} status={status} output={output}{' written' if write and output != 'expected' else ''}")
    if output == "differs":
        print("   - is expected, + came; the numbers are those of lines of the output")
        print("\n".join(difference(case, came)))
    elif output == "shown":
        print("\n".join(f"   {line}" for line in text_of(came)))
    return output


def pairs(words: list[str]) -> dict[str, Path]:
    found = {}
    for word in words:
        name, equals, path = word.partition("=")
        if not equals or not Path(path).is_file():
            raise Unfit(f"--data {word}: it is to be NAME=FILE, and the file is to be there")
        found[name] = Path(path)
    return found


def main() -> int:
    parser = Parser(prog="cases",
                    description="Runs the scripts of a folder, and tells what differs from what they are to print.")
    parser.add_argument("folder", metavar="FOLDER", type=Path)
    parser.add_argument("rules", metavar="RULES", type=Path, nargs="?")
    parser.add_argument("--data", metavar="NAME=FILE", nargs="+", action="extend", default=[])
    parser.add_argument("--write", action="store_true",
                        help="write what comes where nothing, or something else, is expected")
    words = parser.parse_args()
    try:
        if not words.folder.is_dir():
            raise Unfit(f"{words.folder} is no folder")
        if words.rules is not None and not words.rules.is_file():
            raise Unfit(f"there is no rule file {words.rules}")
        data = pairs(words.data)
        found = [run_case(case_of(script, words.rules, data), words.folder, words.write)
                 for script in scripts_of(words.folder)]
    except Unfit as unfit:
        print(f"cases: {unfit}", file=sys.stderr)
        return 2
    counts = " ".join(f"{name}={found.count(name)}" for name in ("expected", "differs", "shown"))
    print(f"cases={len(found)} {counts}")
    return 1 if "differs" in found else 0


if __name__ == "__main__":
    sys.exit(main())
