"""The objects that `desk` answers (docs/DESK.md). All that an answer has comes from them; a rule file that can be read
adds what the variables of fields stand for, and where and by which rule a fact came."""

from __future__ import annotations

import json
from pathlib import Path
from typing import Any, Callable, Optional, Union

from .answers import Answer, Fact, Fault, Firing, Names, NotKnown
from .facts import Facts
from .images import head_of
from .reading import BadOutput, Reading
from .rules import Rules, agreed

Members = dict[str, Any]


def object_in(text: str) -> Optional[Members]:
    """The object that a line has, None where it has none."""
    try:
        found = json.loads(text)
    except (ValueError, RecursionError):
        return None
    return found if isinstance(found, dict) else None


def variable(name: str) -> str:
    """The name of a variable without its sign."""
    return name[1:] if name.startswith("$") else name


def told_names(told: Members, facts: list[Fact]) -> Names:
    """What the variables stand for that a firing's object names."""
    names = {variable(it["name"]): fact for it, fact in zip(told["facts"], facts) if "name" in it}
    return {**names, **{variable(it["name"]): it["value"] for it in told["results"] if "name" in it}}


def all_names(rules: Optional[Rules], rule: str, facts: list[Fact], results: list[int], told: Names) -> Names:
    """What is told, with the variables of fields, as far as the ways of the rule that it leaves agree on them."""
    ways = [names for _, names in rules.named(rule, facts, results)] if rules else []
    return {**agreed([names for names in ways if all(names.get(key) == told[key] for key in told)]), **told}


def version_in(firing: Firing, number: int) -> Optional[Fact]:
    """A fact as the actions of a firing have left it so far, None where they had no part of it."""
    return next((fact for fact in [*reversed(firing.modified), *firing.facts] if fact.id == number), None)


class ObjectReading(Reading):
    """The answers of `desk`: each object is of the first pending line, and the one with `done` closes it. `firing` is
    the one whose actions answer now."""

    def __init__(self, rules: Optional[Rules], image: Union[None, str, Path], hand_on: Callable[[Answer], None]):
        super().__init__(rules, Facts(rules), None if image is None else head_of(Path(image)), hand_on)
        self.book.clock = self.before.clock if self.before else 0
        self.firing: Optional[Firing] = None

    def enter(self, answer: Answer) -> bytes:
        self.pending.append(answer)
        return b""

    def take(self, text: str) -> None:
        told = object_in(text)
        if told is None:
            self.take_text(text)
        elif "change" in told:
            self.changes.append((told["change"], told["rule"]))
        elif self.pending and (answer := self.pending[0]):
            number = told.get("done", told.get("line"))
            word = next((word for word in TAKERS if word in told), None)
            if word is not None and number is not None:
                self.lines_before = number - answer.number
                TAKERS[word](self, answer, told)

    def take_text(self, text: str) -> None:
        """A refusal, before the first line is read."""
        if text.startswith(("refused ", "usage: ")):
            self.said = text
        else:
            self.said = f"no object: {text}"
            raise BadOutput

    # ---- what lines and actions did to facts

    def rules_of(self, facts: list[Fact]) -> Optional[Rules]:
        """The rules, as long as what is told is of their types: the file that the client reads may be another than the
        program's."""
        if self.rules and not all(map(self.rules.has, facts)):
            self.rules = None
            self.book.facts.clear()
        return self.rules

    def fact(self, told: Members, word: str) -> Fact:
        """A fact as an object tells it; with its entry point and rule, where the session has seen it come."""
        seen = self.book.facts.get(told[word])
        entry, rule = (seen.entry, seen.rule) if seen else (None, None)
        return Fact(told[word], told["type"], told.get("fields"), entry, rule)

    def new(self, answer: Answer, told: Members) -> None:
        if self.firing:
            fact = Fact(told["new"], told["type"], told["fields"], rule=self.firing.rule)
            self.firing.made.append(fact)
        else:
            entry = (answer.command or {}).get("entry") or "DEFAULT"
            fact = answer.told_fact = Fact(told["new"], told["type"], told["fields"], entry)
        if self.rules_of([fact]):
            self.book.insert(fact)

    def modified(self, answer: Answer, told: Members) -> None:
        fact = self.fact(told, "modified")
        self.book.modify(fact.id, told["fields"])
        if self.firing:
            self.firing.modified.append(fact)

    def retracted(self, answer: Answer, told: Members) -> None:
        number = told["retracted"]
        gone = self.fact(told, "retracted")
        self.book.retract(number)
        if self.firing and all(fact.id != number for fact in self.firing.retracted):
            self.firing.retracted.append(version_in(self.firing, number) or gone)

    # ---- firings, and faults

    def fire(self, answer: Answer, told: Members) -> None:
        if self.book.clock != told["at"]:
            self.book.move(told["at"])
        facts, results = [self.fact(it, "id") for it in told["facts"]], [it["value"] for it in told["results"]]
        names = self.names(told["fire"], facts, results, told_names(told, facts))
        self.firing = Firing(told["fire"], told["line"], told["at"], facts, results, names)
        answer.told_firings.append(self.firing)
        self.fired[self.firing.rule] += 1

    def names(self, rule: str, facts: list[Fact], results: list[int], told: Names) -> Names:
        """What is told, with the variables of fields, as far as the ways of the rule that it leaves agree on them."""
        return all_names(self.rules_of(facts), rule, facts, results, told)

    def fault(self, answer: Answer, told: Members) -> None:
        fault = Fault(told["line"], told["fault"], answer.text, self.firing.rule if self.firing else None)
        if self.firing:
            self.firing.faults.append(self.noted(fault))
        else:
            answer.told_fault = self.noted(fault)

    # ---- what lines asked for, and their ends

    def held(self, answer: Answer, told: Members) -> None:
        answer.told_held[told["held"]] = told["count"]

    def limit(self, answer: Answer, told: Members) -> None:
        answer.told_limit = told["limit"]

    def kept(self, answer: Answer, told: Members) -> None:
        answer.told_kept.append(self.fact(told, "fact"))

    def counts(self, answer: Answer, told: Members) -> None:
        if self.book.clock != told["clock"]:
            self.book.move(told["clock"])
        answer.told_counts = told

    def saved(self, answer: Answer, told: Members) -> None:
        answer.told_saved = told["saved"]

    def done(self, answer: Answer, told: Members) -> None:
        self.firing = None
        answer.told_pending = told.get("pending")
        if answer.word in ("at", "advance") and answer.command and not answer.told_fault:
            self.move_clock(answer.command)
        if answer.told_pending is False:
            self.book.nothing_pending()
        self.finish(answer)

    # ---- what is known behind it

    def status(self, status: int) -> int:
        return status

    def known_facts(self) -> list[Fact]:
        """Those of them that came in this session."""
        if self.rules is None:
            raise NotKnown("without a rule file that can be read here it is not known which facts an answer may still "
                           "name: `kept` asks the program")
        return super().known_facts()


# By the member that tells an object's kind, what takes it.
TAKERS: dict[str, Callable[[ObjectReading, Answer, Members], None]] = {
    "done": ObjectReading.done, "fire": ObjectReading.fire, "new": ObjectReading.new,
    "modified": ObjectReading.modified, "retracted": ObjectReading.retracted, "fault": ObjectReading.fault,
    "held": ObjectReading.held, "limit": ObjectReading.limit, "fact": ObjectReading.kept,
    "counts": ObjectReading.counts, "saved": ObjectReading.saved}
