"""Holds the cases of crates/cases against the reference.

    tools/run reference.comparers.gate_cases            # the titles of the cases whose lines in crates/cases/stdout are
                                                        # not the reference's
    tools/run reference.comparers.gate_cases --print    # what the reference says that all cases print

How a case is written is said in docs/CHANGING.md (*A case*). How many calls a run makes of its rule file, its script
and its output is said by no contract; here they are counted as the program makes them: the rule file in pieces of 4,096
bytes up to its end, the script in pieces of 65,536 or of what `=== chunks` allows, once more behind a last line without
an end, and what lines print before the next piece is read. A load of `--gen` without a limit is far too slow here, and
left out.
"""

from __future__ import annotations

import sys
from collections import Counter
from dataclasses import dataclass, field
from typing import Iterator

from ...places import clone
from ...words import Parser
from ..meaning.program import Program
from ..meaning.reader import FILE_END
from ..meaning.run import program_or_refusal, run
from ..replay import USAGE, BadWords, asked, generated_run, mode_text
from .modes import image_answer

ROOM = 1 << 20
RULES_PIECE, SCRIPT_PIECE = 4096, 65536
STATUS = {"shelf": 5, "script": 5, "out": 6}


class TooSlow(Exception):
    """The case runs a whole load."""


@dataclass
class Case:
    """A case as its lines say it."""
    title: bytes
    words: list[str] = field(default_factory=lambda: ["RULES"])
    fail: dict[str, list[int]] = field(default_factory=dict)
    each: list[str] = field(default_factory=list)
    most: int = ROOM
    room: int = ROOM
    rules_len: int = 0
    line_lens: list[int] = field(default_factory=list)
    returns: bool = False
    ended: bool = True
    cut: bool = False
    rules: bytes = b""
    script: bytes = b""

    def set(self, words: list[str]) -> None:
        if words[0] == "words":
            self.words = words[1:]
        elif words[0] == "fail":
            self.fail[words[1]] = [int(word) for word in words[2:]]
        elif words[0] == "each":
            self.each.append(words[1])
        elif words[0] == "chunks":
            self.most = int(words[1])
        elif words[0] == "room":
            self.room = int(words[1])
        elif words[:2] == ["blanks", "rules"]:
            self.rules_len = int(words[2])
        elif words[:2] == ["blanks", "lines"]:
            self.line_lens = [int(word) for word in words[2:]]
        elif words == ["cuts"]:
            self.cut = True
        elif words in (["returns"], ["unended"]):
            self.returns, self.ended = self.returns or words == ["returns"], self.ended and words != ["unended"]
        else:
            raise ValueError(f"nothing is set by {words}")

    def finish(self, lines: list[bytes]) -> None:
        """Takes the lines of the script, when all is set."""
        lens = self.line_lens + [0] * len(lines)
        end = b"\r" if self.returns else b""
        self.script = b"".join(line + b" " * (n - len(line) - len(end)) + end + b"\n" for line, n in zip(lines, lens))
        self.script = self.script if self.ended else self.script[:-1]
        self.rules += b" " * (self.rules_len - len(self.rules))


def cases_of(data: bytes) -> Iterator[Case]:
    case, script = None, None
    for line in data.split(b"\n")[:-1]:
        if case is None:
            case, script = Case(line), None
        elif line == b"=== script":
            script = []
        elif line == b"=== end":
            case.finish(script or [])
            yield case
            case = None
        elif line.startswith(b"=== "):
            case.set(line[4:].decode().split())
        elif script is None:
            case.rules += line + b"\n"
        else:
            script.append(line)


Call = tuple[str, bytes]


def run_calls(case: Case, program: Program, limit: int) -> tuple[list[Call], int]:
    """The calls of a run over the script with its status. What lines print is written before the script is read
    again."""
    calls: list[Call] = []
    at = printed = 0
    while True:
        piece = case.script[at:at + min(case.most, SCRIPT_PIECE)]
        at += len(piece)
        calls.append(("script", piece))
        front = case.script if not piece else case.script[:case.script.rfind(b"\n", 0, at) + 1]
        state = run(program, front, limit)
        text = "".join(line + "\n" for line in state.lines).encode()
        calls += writes(case, text[printed:])
        printed = len(text)
        if not piece and not state.ended and case.script[-1:] not in (b"", b"\n"):
            calls.append(("script", piece))
        if not piece or state.ended:
            return calls, state.status


def writes(case: Case, text: bytes) -> list[Call]:
    return [("out", text[at:at + case.most]) for at in range(0, len(text), case.most)]


def all_calls(case: Case) -> tuple[list[Call], int]:
    """The calls of the case's run where nothing fails, in their order, and its status."""
    try:
        a = asked(case.words)
    except BadWords:
        return writes(case, (USAGE + "\n").encode()), 2
    if a.gen is not None and not any(word.startswith("--limit") for word in case.words):
        raise TooSlow
    if a.gen is not None:
        text, status = generated_run(a.gen, a.limit)
        return writes(case, text.encode()), status
    if a.rules != "RULES":
        return writes(case, b"refused item 0 line 0 Missing\n"), 3
    calls = file_calls(case.rules[:FILE_END + 1])
    program = program_or_refusal(case.rules[:FILE_END + 1])
    if isinstance(program, str):
        return calls + writes(case, (program + "\n").encode()), 3
    if a.image is not None:
        # On the shelf stand the rule file and an empty file with the name IMAGE, neither of which is an image.
        code = "BadImage" if a.image in ("RULES", "IMAGE") else "Missing"
        return calls + writes(case, f"refused checkpoint {code}\n".encode()), 9
    if a.mode == "save":
        image, status = image_answer(run(program, case.script, a.limit))
        return calls + [("script", case.script)] + writes(case, image), status
    if a.mode != "run":
        return calls + writes(case, mode_text(program, a.mode).encode()), 0
    more, status = run_calls(case, program, a.limit)
    return calls + more, status


def file_calls(rules: bytes) -> list[Call]:
    pieces = [("shelf", rules[at:at + RULES_PIECE]) for at in range(0, len(rules), RULES_PIECE)]
    return pieces if len(rules) > FILE_END else pieces + [("shelf", b"")]


def ending(case: Case, calls: list[Call], status: int) -> tuple[bytes, int]:
    """What is written up to the first call that fails, and the status."""
    written = b""
    counts: Counter[str] = Counter()
    for name, data in calls:
        counts[name] += 1
        left = case.room - len(written)
        if counts[name] in case.fail.get(name, []) or (name == "out" and left == 0):
            return written, STATUS[name]
        if name == "out":
            written += data[:left]
            if len(data) > left:
                return written, STATUS[name]
    return written, status


def printed(case: Case) -> bytes:
    """What the case prints behind its title."""
    calls, status = all_calls(case)
    written, status = ending(case, calls, status)
    counts = Counter(name for name, _ in calls)
    each = [f"=== each {name}: {counts[name]} calls, status {STATUS[name]}, prefixes\n" for name in case.each]
    cuts = f"=== cuts: {(case.script.count(10) + 1) // 3}, the same\n" if case.cut else ""
    return written + f"=== status {status}\n".encode() + "".join(each).encode() + cuts.encode()


def expected_of(data: bytes) -> dict[bytes, bytes]:
    """What is printed behind each title that `stdout` has."""
    found: dict[bytes, bytes] = {}
    title = b""
    for line in data.split(b"\n")[:-1]:
        if line.startswith(b"=== ") and line[4:5].isdigit():
            title = line
            found[title] = b""
        else:
            found[title] += line + b"\n"
    return found


def main() -> int:
    parser = Parser(description="Holds the cases of crates/cases against the reference.")
    parser.add_argument("--print", action="store_true", help="print what the reference says")
    wanted = parser.parse_args()
    folder = clone() / "crates" / "cases"
    with open(folder / "stdin", "rb") as f:
        cases = list(cases_of(f.read()))
    with open(folder / "stdout", "rb") as f:
        expected = expected_of(f.read())
    agreed = slow = 0
    for case in cases:
        try:
            text = printed(case)
        except TooSlow:
            slow += 1
            continue
        if wanted.print:
            sys.stdout.buffer.write(case.title + b"\n" + text)
        elif text == expected.get(case.title):
            agreed += 1
        else:
            print(case.title.decode())
    if not wanted.print:
        print(f"{agreed} of {len(cases)} cases agreed, {slow} too slow here")
    return 0 if wanted.print or agreed + slow == len(cases) else 1


if __name__ == "__main__":
    sys.exit(main())
