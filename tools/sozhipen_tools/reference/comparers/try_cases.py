"""Holds the program against the reference before it is proved: all seeds by one `rt try` of crates/replay_main.

    tools/run reference.comparers.try_cases --seeds A B [--folder FOLDER]

Writes each seed's files to the folder (the script as SEED, the output of the reference as SEED.stdout, the rule file as
SEED.drl, the words as SEED.args), builds the program once with checks, and runs it on each. Prints the seeds whose
output differs or whose status is not that of the reference, and those without an answer: `rt try` gives none where the
program writes more than 1 MiB, and it has stopped by itself after some hundred seeds, so a few hundred at a time are
best.
"""

from __future__ import annotations

import os
import re
import subprocess
import sys
from collections import Counter

from ...places import clone
from ...words import Parser
from ..generators.generate import case_of
from ..meaning.run import report
from .compare import count_lines, summary


def write(path: str, data: bytes) -> None:
    with open(path, "wb") as f:
        f.write(data)


def main() -> int:
    parser = Parser(description="Holds the unproved program against the reference.")
    parser.add_argument("--seeds", type=int, nargs=2, required=True, metavar=("A", "B"), help="from A up to B - 1")
    parser.add_argument("--folder", default="reference-cases")
    asked = parser.parse_args()
    folder, rules = os.path.abspath(asked.folder), os.path.abspath(asked.folder) + "-rules"
    os.makedirs(folder, exist_ok=True)
    os.makedirs(rules, exist_ok=True)
    statuses: dict[str, int] = {}
    counts: Counter = Counter()
    words = ["rt", "try", "--cases", folder]
    for seed in range(*asked.seeds):
        case, name = case_of(seed), str(seed)
        output, statuses[name] = report(case.rules, case.script, case.limit or 100_000)
        count_lines(counts, output)
        limit = "" if case.limit is None else f"--limit\n{case.limit}\n"
        write(os.path.join(folder, name), case.script)
        write(os.path.join(folder, name + ".args"), f"{limit}{name}.drl\n".encode())
        write(os.path.join(folder, name + ".stdout"), output)
        write(os.path.join(rules, name + ".drl"), case.rules)
        words += ["--data", f"{name}.drl={rules}/{name}.drl"]
    done = subprocess.run(words, cwd=clone() / "crates" / "replay_main", capture_output=True)
    said = (done.stdout + done.stderr).decode("utf-8", "backslashreplace")
    write(folder + "-said", said.encode())
    answered = dict(re.findall(r"^case=(\S+) (.*)$", said, re.M))
    missing = [name for name in statuses if name not in answered]
    wrong = [name for name, said_of in answered.items()
             if f"status={statuses[name]}" not in said_of.split() or "output=expected" not in said_of.split()]
    for name in wrong:
        print(f"seed {name}: the reference ends with {statuses[name]}; {answered[name]}")
    if missing:
        print(f"no answer from rt try, run them again: seeds {', '.join(missing)}")
    print(f"rt try: {said.strip().splitlines()[-1]}")
    print(f"{len(statuses) - len(wrong) - len(missing)} of {len(statuses)} seeds agreed: {summary(counts)}")
    return 0 if not wrong and not missing else 1


if __name__ == "__main__":
    sys.exit(main())
