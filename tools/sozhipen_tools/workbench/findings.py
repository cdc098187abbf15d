"""What the workbench says about a rule file and a run beside what the program prints. It comes from the other tools:
this is the one module that calls them."""

from __future__ import annotations

import argparse
import re
from functools import lru_cache
from typing import Any, Optional

from ..places import TOP
from ..reference.meaning import lives
from ..reference.meaning.program import Program
from ..reference.meaning.temporal import INFINITE
from ..rulefile import kept, lint, where
from ..running import faults, history, why

Finding = dict[str, Any]

# ---- words for codes, as the documents have them

ROW = re.compile(r"\| `(\w+)` \| (.*?) \| (.*?) \|$", re.MULTILINE)


@lru_cache(maxsize=None)
def words_of(document: str, chapter: str) -> dict[str, str]:
    """By code, when it comes and what to do: the rows of three cells below a heading of a document."""
    try:
        text = (TOP / "docs" / document).read_text(encoding="utf-8")
    except OSError:
        return {}
    chapter_text = text.partition(f"\n## {chapter}\n")[2].partition("\n## ")[0].replace(r"\|", "\0")
    return {code: f"{when}. {then[:1].upper()}{then[1:]}.".replace("\0", "|")
            for code, when, then in ROW.findall(chapter_text)}


def fault_words(code: str) -> str:
    return words_of("SCRIPT.md", "Faults").get(code, "")


def refusal_words(code: str) -> str:
    return words_of("LIVES.md", "Refusals").get(code, "")


# ---- the rule file: what is wrong, and what is seldom meant

TOKEN = re.compile(rb"[\w$]+|==|!=|<=|>=|&&|\|\||.|$", re.DOTALL)


def finding(data: bytes, at: int, code: str, text: str) -> Finding:
    """What is said of the token at an offset; a column counts as the text of a page does, in units of UTF-16."""
    before = data[data.rfind(b"\n", 0, at) + 1:at].decode("utf-8", "replace")
    token = TOKEN.match(data, at)
    return {"line": data.count(b"\n", 0, at) + 1, "column": len(before.encode("utf-16-le")) // 2 + 1,
            "length": max(1, token.end() - at if token else 0), "code": code, "text": text}


def told(data: bytes, complaint: Any) -> Finding:
    """A complaint of the other tools."""
    instead = f"; instead: {complaint.instead}" if complaint.instead else ""
    return finding(data, complaint.at, complaint.code, complaint.what + instead)


def refusals(data: bytes) -> list[Finding]:
    """All that is wrong in a rule file, by its place, with what the code means."""
    return [{**told(data, complaint), "words": refusal_words(complaint.code)}
            for complaint in where.all_complaints(data)]


def advice(data: bytes) -> list[Finding]:
    """What an accepted rule file has that is seldom meant; what is kept for ever is told with the lives."""
    return [told(data, warning) for warning in lint.warnings_of(data) if warning.code != "for-ever"]


# ---- lives


def life_of(program: Program, name: str) -> dict[str, str]:
    """The life of a type of events, and the patterns that it comes from."""
    info = program.types[name]
    if info.expires is not None:
        return {"type": name, "life": f"explicit {info.expires}", "why": "its @expires, from the start of the event"}
    life = lives.life_of_type(program, name)
    reasons = kept.reasons(program, name)[:3]
    said = [f'rule "{program.title(it.rule)}", condition {it.condition + 1}: {it.why}' for it in reasons]
    return {"type": name, "life": "infinite" if life == INFINITE else str(life), "why": "\n".join(dict.fromkeys(said))}


def life_reasons(program: Program) -> list[dict[str, str]]:
    return [life_of(program, info.name) for info in program.types.values() if info.event]


# ---- lines of the script


def fault_reason(program: Program, script: bytes, line: int) -> list[str]:
    """Why a line is faulty: the field, the fact, the floor or the action that it is about. The run up to there is done
    anew."""
    return [text.partition(": ")[2] for text in faults.told(history.followed(program, script, line))]


def reasons_at(rules: bytes, script: bytes, line: int, rule: Optional[str], facts: list[int]) -> list[str]:
    """What is pending at a line, and condition by condition why a rule does or does not fire there."""
    return list(why.told(argparse.Namespace(line=line, rule=rule, fact=facts), rules, script))
