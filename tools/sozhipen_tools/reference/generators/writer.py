"""From trees back to the text of a rule file, with a choice among the forms that mean the same.

Every choice (blanks, comments, optional marks, setters, quotes, both forms of accumulates, times with units) is drawn
from a random source, so that a file that is read again gives the same trees in another dress.
"""

from __future__ import annotations

from random import Random
from typing import Any

from ..meaning.reader import is_ident
from ..meaning.tokens import UNITS, WORD
from ..meaning.trees import (Action, Alternatives, Annotation, Attribute, Binary, Bind, Body, Compare, Comparison,
                             Dialect, EntryDeclaration, Expires, Expr, FieldOf, Folded, Import, Insert, LengthWindow,
                             Literal, Modify, Negate, Negated, Operand, Own, Package, Part, Plain, Reference, Role,
                             Rule, Salience, Source, Temporal, Timestamp, TimeWindow, TypeDeclaration, Variable,
                             WrittenCondition)

SEPARATORS = [" "] * 12 + ["\n"] * 4 + ["\n  ", "\t", "  ", "\r\n", " /* a */ ", " // b\n", " # c\n"]
TIGHT = set("(){}[],;:")


class Writer:
    """Writes trees as lists of tokens, and these as text."""

    def __init__(self, rng: Random):
        self.rng = rng

    def maybe(self, mark: str) -> list[str]:
        return [mark] if self.rng.random() < 0.5 else []

    def text_of(self, items: list[list[str]]) -> str:
        """The tokens of the items, parted by blanks and comments where they must or may be."""
        pieces: list[str] = []
        for tokens in items:
            for token in tokens:
                tight = pieces and (pieces[-1][-1] in TIGHT or token[0] in TIGHT)
                if pieces and not (tight and self.rng.random() < 0.5):
                    pieces.append(self.rng.choice(SEPARATORS))
                pieces.append(token)
            pieces.append("\n")
        return "".join(pieces)

    # ---- leaves

    def quoted(self, text: str) -> str:
        quote = self.rng.choice("\"\"\"'")
        escapes = {"\\": "\\\\", "\n": "\\n", quote: "\\" + quote}
        if self.rng.random() < 0.5:
            escapes.update({"\t": "\\t", "\r": "\\r", "'": "\\'", '"': '\\"'})
        return quote + "".join(escapes.get(c, c) for c in text) + quote

    def name(self, text: str) -> list[str]:
        ascii_word = text.isascii() and WORD.fullmatch(text.encode()) and is_ident(text)
        return [text if ascii_word and self.rng.random() < 0.5 else self.quoted(text)]

    def span(self, ms: int) -> list[str]:
        sign, ms = (["-"], -ms) if ms < 0 else ([], ms)
        return sign + [str(ms) if self.rng.random() < 0.4 or ms > 2**53 else self.time(ms)]

    def time(self, ms: int) -> str:
        """A number of milliseconds by units; the last unit may be left out."""
        if self.rng.random() < 0.3:
            return f"{ms}ms"
        parts, left = [], ms
        for unit in ("d", "h", "m", "s"):
            if self.rng.random() < 0.7 and left >= UNITS[unit]:
                parts.append(f"{left // UNITS[unit]}{unit}")
                left %= UNITS[unit]
        if left or not parts:
            parts.append(f"{left}" if parts and self.rng.random() < 0.5 else f"{left}ms")
        return "".join(parts)

    def literal(self, value: Any) -> list[str]:
        if isinstance(value, bool):
            return ["true" if value else "false"]
        if isinstance(value, str):
            return [self.quoted(value)]
        return ["-", str(-value)] if value < 0 else [str(value)]

    def operand(self, o: Operand | Expr) -> list[str]:
        if isinstance(o, Literal):
            return self.literal(o.value)
        if isinstance(o, Variable):
            return ["$" + o.name]
        assert isinstance(o, (Own, FieldOf)), "an operand"
        return ["$" + o.variable, ".", o.field] if isinstance(o, FieldOf) else [o.field]

    def listed(self, parts: list[list[str]], mark: str = ",") -> list[str]:
        found: list[str] = []
        for k, part in enumerate(parts):
            found += ([mark] if k else []) + part
        return found

    # ---- conditions

    def comparison(self, c: Comparison) -> list[str]:
        if isinstance(c, Compare):
            return [c.field, c.relation] + self.operand(c.operand)
        return [c.field, "in", "("] + self.listed([self.operand(o) for o in c.operands]) + [")"]

    def part(self, p: Part) -> list[str]:
        if isinstance(p, Bind):
            return ["$" + p.variable, ":", p.field]
        if isinstance(p, Temporal):
            parameters = ["["] + self.listed([self.span(v) for v in p.parameters]) + ["]"] if p.parameters else []
            return ["this", p.operator] + parameters + ["$" + p.other]
        return self.listed([self.listed([self.comparison(c) for c in group], "&&") for group in p.groups], "||")

    def source(self, s: Source) -> list[str]:
        found = [] if s.variable is None else ["$" + s.variable, ":"]
        found += [s.type, "("] + self.listed([self.part(p) for p in s.parts]) + [")"]
        if isinstance(s.window, TimeWindow):
            found += ["over", "window", ":", "time", "("] + self.span(s.window.length) + [")"]
        elif isinstance(s.window, LengthWindow):
            found += ["over", "window", ":", "length", "(", str(s.window.count), ")"]
        return found + ([] if s.entry is None else ["from", "entry", "-", "point"] + self.name(s.entry))

    def condition(self, c: WrittenCondition) -> list[str]:
        if isinstance(c, Alternatives):
            return ["("] + self.listed([[t for inner in choice for t in self.condition(inner)] for choice in c.choices],
                                       "or") + [")"]
        if isinstance(c, Plain):
            return self.source(c.source)
        if isinstance(c, Folded):
            return self.folded(c)
        word = "not" if isinstance(c, Negated) else "exists"
        source = self.source(c.source)
        return [word] + (["("] + source + [")"] if self.rng.random() < 0.7 else source)

    def folded(self, c: Folded) -> list[str]:
        function = [c.function, "(", "$" + c.argument, ")"]
        if c.result is not None and self.rng.random() < 0.5:
            tests = self.listed([["$" + c.result, rel] + self.operand(o) for rel, o in c.tests])
            return (["accumulate", "("] + self.source(c.source) + [";", "$" + c.result, ":"] + function
                    + ([";"] + tests if tests else []) + [")"])
        tests = self.listed([[self.rng.choice(["longValue", "intValue"]), rel] + self.operand(o) for rel, o in c.tests])
        result = [] if c.result is None else ["$" + c.result, ":"]
        return (result + ["Number", "("] + tests + [")", "from", "accumulate", "("] + self.source(c.source) + [","]
                + function + [")"])

    # ---- actions

    def expr(self, e: Expr, strength: int = 0) -> list[str]:
        """`strength` is that of the operator around it: 1 within + and -, 2 within *, 3 within a minus or on the
        right."""
        if isinstance(e, Negate):
            return ["-"] + self.expr(e.inner, 3)
        if isinstance(e, Binary):
            own = 2 if e.sign == "*" else 1
            inner = self.expr(e.left, own) + [e.sign] + self.expr(e.right, own + 1)
            return ["("] + inner + [")"] if strength > own or self.rng.random() < 0.1 else inner
        return self.operand(e)

    def assignment(self, field: str, e: Expr) -> list[str]:
        if self.rng.random() < 0.3:
            first = field[0].upper() if self.rng.random() < 0.7 or field[0].isdigit() else field[0]
            if first.lower() == field[0]:
                return ["set" + first + field[1:], "("] + self.expr(e) + [")"]
        return [field, "="] + self.expr(e)

    def action(self, a: Action) -> list[str]:
        if isinstance(a, Insert):
            found = ["insert", "(", "new", a.type, "("] + self.listed([self.expr(e) for e in a.values]) + [")", ")"]
        elif isinstance(a, Modify):
            sets = self.listed([self.assignment(f, e) for f, e in a.sets])
            found = ["modify", "(", "$" + a.variable, ")", "{"] + sets + ["}"]
        else:
            found = ["retract", "(", "$" + a.variable, ")"]
        return found + self.maybe(";")

    # ---- items

    def annotation(self, a: Annotation) -> list[str]:
        if isinstance(a, Role):
            return ["@", "role", "(", "event" if a.event else "fact", ")"]
        if isinstance(a, Expires):
            return ["@", "expires", "("] + self.span(a.offset) + [")"]
        if isinstance(a, Reference):
            return ["@", "reference"]
        return ["@", "timestamp" if isinstance(a, Timestamp) else "duration", "(", a.field, ")"]

    def attribute(self, a: Attribute) -> list[str]:
        found = ["salience"] + self.literal(a.value) if isinstance(a, Salience) else ["dialect", self.quoted(a.text)]
        return found + self.maybe(",")

    def item(self, b: Body) -> list[str]:
        if isinstance(b, Package):
            return ["package"] + self.listed([[p] for p in b.path], ".") + self.maybe(";")
        if isinstance(b, Import):
            return ["import"] + self.listed([[p] for p in b.path], ".") + [".", "*"] * b.star + self.maybe(";")
        if isinstance(b, Dialect):
            return ["dialect", self.quoted(b.text)] + self.maybe(";")
        if isinstance(b, TypeDeclaration):
            return (["declare", b.name] + ([] if b.parent is None else ["extends", b.parent])
                    + [t for a in b.annotations for t in self.annotation(a)]
                    + [t for name, word in b.fields for t in (name, ":", word)] + ["end"])
        if isinstance(b, EntryDeclaration):
            lateness = [] if b.lateness is None else ["@", "lateness", "("] + self.span(b.lateness) + [")"]
            return ["declare", "entry", "-", "point"] + self.name(b.name) + lateness + ["end"]
        return self.rule(b)

    def rule(self, r: Rule) -> list[str]:
        return (["rule"] + self.name(r.name) + [t for a in r.attributes for t in self.attribute(a)] + ["when"]
                + [t for c in r.conditions for t in self.condition(c)] + ["then"]
                + [t for a in r.actions for t in self.action(a)] + ["end"])
