"""Reads a rule file past its mistakes: each is told with its place, and reading goes on behind it.

The reader of the second evaluator stops at the first token that is none of the grammar. Here each production that is
likely to be wrong is attempted: where it fails, that is told, and the tokens up to where the next one may begin are
skipped. What was skipped is remembered by its words, so that nothing is told of a name that may have been bound there.
"""

from __future__ import annotations

import re
from dataclasses import dataclass, field
from functools import cached_property
from typing import Any, Callable, Optional

from ..reference.meaning import temporal
from ..reference.meaning.reader import (FIRST_WORDS, NESTED_ALTERNATIVES, RELATIONS, OutsideGrammar, Reader, T,
                                        field_of_setter, is_ident, items_of_tokens)
from ..reference.meaning.tokens import RUN, UNITS, LexicalFault, Token, tokens_of
from ..reference.meaning.trees import (Alternatives, AnyOf, Body, Condition, DialectAttribute, EntryDeclaration, Insert,
                                       Literal, Modify, Plain, Role, Rule, Source, TypeDeclaration)
from .forms import instead_of

MOST_FAULTS = 50

NO_PART = AnyOf(())
NO_FIELD = ("", "")
NO_ASSIGNMENT = ("", Literal(0))
NO_VALUE_TEST = ("==", Literal(0))

# What may begin where a production begins.
BEGINNINGS = {"item": "`package`, `import`, `dialect`, `declare` or `rule`", "field": "a field or `end`",
              "attribute": "`salience`, `dialect` or `when`", "condition": "a condition or `then`",
              "part": "a part of the pattern", "action": "an action or `end`", "assignment": "a field",
              "expression": "a value", "entry": "`entry-point`"}
VALUES = {"a number", "a text", "`true`", "`false`"}
OPERATORS = {f"`{operator}`" for operator in temporal.OPERATORS}


# What may begin behind an attribute that is none: `when`, the two attributes, and those of Drools.
ATTRIBUTES = ("when", "salience", "dialect", "@", "no", "lock", "agenda", "ruleflow", "activation", "auto", "enabled",
              "timer", "calendars", "duration", "date")


@dataclass(frozen=True, order=True)
class Complaint:
    """What stands at an offset of the file where what is expected, and what to write instead where that is known.
    Complaints are told in the order of their places, those of one place by their words."""
    at: int
    code: str
    what: str
    instead: str = ""


@dataclass
class ReadItem:
    """An item as far as it could be read: its tokens, the tokens of each node, the words that were skipped; of a rule
    that was written out, the one in the file."""
    tokens: list[Token]
    body: Optional[Body] = None
    places: dict[int, list[Token]] = field(default_factory=dict)
    unclear: set[str] = field(default_factory=set)
    complaints: list[Complaint] = field(default_factory=list)
    new_types: list[Token] = field(default_factory=list)
    as_written: Optional[Rule] = None

    def tokens_of(self, node: object) -> list[Token]:
        """The tokens of a node; those of the item where they are not known."""
        return self.places.get(id(node)) or self.tokens


class TolerantReader(Reader):
    """Reads one item. `shown` tells a token as the file has it."""

    def __init__(self, tokens: list[Token], shown: Callable[[Token], str]):
        super().__init__(list(tokens))
        self.read = ReadItem(tokens)
        self.shown = shown
        self.made_up: list[Token] = []
        self.nodes: list[object] = []
        self.nothing: set[int] = set()
        self.asked: list[str] = []
        self.asked_at = -1
        self.failed_in: Optional[str] = None

    # ---- what is asked of a token

    def ask(self, what: str) -> None:
        if self.asked_at != self.place:
            self.asked, self.asked_at = [], self.place
        if what not in self.asked:
            self.asked.append(what)

    def at_mark(self, mark: str, ahead: int = 0) -> bool:
        if ahead == 0:
            self.ask(f"`{mark}`")
        return super().at_mark(mark, ahead)

    def at_word(self, word: str, ahead: int = 0) -> bool:
        if ahead == 0:
            self.ask(f"`{word}`")
        return super().at_word(word, ahead)

    def at_kind(self, kind: str, ahead: int = 0) -> bool:
        if ahead == 0:
            self.ask({"var": "a variable"}.get(kind, f"a {kind}"))
        return super().at_kind(kind, ahead)

    def at_ident(self, ahead: int = 0) -> bool:
        if ahead == 0:
            self.ask("a name")
        return super().at_ident(ahead)

    def take(self, kind: str) -> Any:
        if kind != "mark" and not self.is_kind(self.place, kind):
            self.at_kind(kind)
        return super().take(kind)

    def one_word(self, words: set[str]) -> str:
        if not any(self.at_word(word) for word in sorted(words)):
            raise OutsideGrammar("word")
        return super().one_word(words)

    def relation(self) -> str:
        if not any(self.at_mark(mark) for mark in sorted(RELATIONS)):
            raise OutsideGrammar("relation")
        return super().relation()

    # ---- looking without asking

    def is_kind(self, k: int, kind: str) -> bool:
        return 0 <= k < len(self.tokens) and self.tokens[k].kind == kind

    def is_token(self, k: int, *values: str) -> bool:
        return 0 <= k < len(self.tokens) and self.tokens[k].kind in ("word", "mark") and self.tokens[k].value in values

    def is_name(self, k: int) -> bool:
        return self.is_kind(k, "word") and is_ident(str(self.tokens[k].value))

    def begins_condition(self, k: int) -> bool:
        if self.is_token(k, "not", "exists", "accumulate"):
            return True
        if self.is_kind(k, "var"):
            return self.is_token(k + 1, ":") and self.is_kind(k + 2, "word") and self.is_token(k + 3, "(")
        return (self.is_name(k) or self.is_token(k, "Number")) and self.is_token(k + 1, "(")

    def begins_action(self, k: int) -> bool:
        return self.is_token(k, "insert", "modify", "retract") and self.is_token(k + 1, "(")

    def begins_part(self, k: int) -> bool:
        if self.is_kind(k, "var"):
            return self.is_token(k + 1, ":") and self.is_name(k + 2) and not self.is_token(k + 3, "(")
        return self.is_token(k, "this") or (self.is_name(k) and self.is_token(k + 1, *RELATIONS, "in"))

    # ---- telling, and going on

    def tell(self, production: str, start: int = -1, instead: str = "") -> None:
        """Tells that the token here is none of those that were asked for."""
        token = self.peek()
        if token is None or any(token is made for made in self.made_up):
            return
        label = self.failed_in or production
        expected = BEGINNINGS[production] if self.place == start and production in BEGINNINGS else self.expected()
        if self.is_token(self.place - 1, "when") and production == "condition":
            expected = "a condition"
        instead = instead or instead_of(label, self.tokens, self.place)
        self.tell_of(token, f"{self.shown(token)} stands where {expected} is expected", instead)

    def tell_of(self, token: Token, what: str, instead: str = "") -> None:
        if all(token.at != told.at for told in self.read.complaints):
            self.read.complaints.append(Complaint(token.at, "Syntax", what, instead))

    def expected(self) -> str:
        """All that was asked for here, in words."""
        asked = [what for what in self.asked if what != "a mark"] if self.asked_at == self.place else []
        asked = ["`entry-point`" if what == "`entry`" else what for what in asked]
        if VALUES <= set(asked):
            asked = [what for what in asked if what not in VALUES | {"a variable", "`-`", "`(`"}] + ["a value"]
        if OPERATORS <= set(asked):
            asked = ["an operator, as `after`"]
        if {"`not`", "`exists`"} <= set(asked):
            asked = [what for what in asked if what not in ("`not`", "`exists`", "`accumulate`", "`Number`",
                                                            "a variable", "a name")]
            asked.append("a condition")
        return " or ".join(filter(None, [", ".join(asked[:-1]), *asked[-1:]])) or "nothing more"

    def labelled(self, label: str, read: Callable[[], T]) -> T:
        """Reads; a failure in it is known by its label."""
        try:
            return self.noted(read)
        except OutsideGrammar:
            self.failed_in = self.failed_in or label
            raise

    def noted(self, read: Callable[[], T]) -> T:
        """Reads a node, and notes its tokens."""
        start = self.place
        node = read()
        self.read.places[id(node)] = self.tokens[start:self.place]
        self.nodes.append(node)
        return node

    def attempt(self, production: str, read: Callable[[], T]) -> Optional[T]:
        """Reads; a failure is told, and answers None."""
        start, self.failed_in = self.place, None
        try:
            return self.noted(read)
        except OutsideGrammar:
            if self.peek() is None:
                raise
            self.tell(production, start)
            return None

    def make_up(self, kind: str, value: str) -> None:
        """Goes on as if this token stood here."""
        here = self.peek() or self.tokens[-1]
        token = Token(kind, value, here.at)
        self.made_up.append(token)
        self.tokens.insert(self.place, token)

    def skip(self) -> None:
        token = self.tokens[self.place]
        if token.kind in ("word", "var"):
            self.read.unclear.add(str(token.value))
        self.place += 1

    def forget(self, start: int) -> None:
        """What was read since then may have bound names."""
        self.read.unclear |= {str(token.value) for token in self.tokens[start:self.place]
                              if token.kind in ("word", "var")}

    def depth_since(self, start: int) -> int:
        depth = 0
        for k in range(start, self.place):
            depth += self.is_token(k, "(", "[", "{")
            depth = max(0, depth - self.is_token(k, ")", "]", "}"))
        return depth

    def skip_while(self, depth: int, stops: Callable[[int], bool]) -> None:
        """Skips up to a token, in no deeper parentheses, at which it stops; and never past a `then` or an `end`."""
        while self.peek() is not None and not self.is_token(self.place, "then", "end"):
            if depth == 0 and stops(self.place):
                return
            depth += self.is_token(self.place, "(", "[", "{")
            depth = max(0, depth - self.is_token(self.place, ")", "]", "}"))
            self.skip()

    def skip_to(self, *marks: str) -> None:
        self.skip_while(0, lambda k: self.is_token(k, *marks))

    def skip_through_parentheses(self, start: int) -> None:
        """Skips behind the parenthesis that closes what is open since then, or the next one."""
        self.skip_while(self.depth_since(start), lambda k: self.is_token(k - 1, ")", "]") and k > start
                        or self.is_token(k, "from", ";", ",", ")", "@"))

    def nothing_of(self, node: T) -> T:
        """Stands for what could not be read."""
        self.nodes.append(node)
        self.nothing.add(id(node))
        return node

    def kept(self, nodes: tuple) -> tuple:
        return tuple(node for node in nodes if id(node) not in self.nothing)

    def kept_conditions(self, conditions: tuple) -> tuple:
        return tuple(self.same_place(c, Alternatives(tuple(map(self.kept_conditions, c.choices))))
                     if isinstance(c, Alternatives) else c for c in self.kept(conditions))

    # ---- items

    def item(self) -> Body:
        if not self.is_token(0, *FIRST_WORDS):
            self.failed_in = "item"
            raise OutsideGrammar("item")
        if self.is_token(1, "entrypoint") and (self.is_kind(2, "text") or self.is_token(3, "@", "end")):
            self.entry_in_one_word()
        return super().item()

    def entry_in_one_word(self) -> None:
        """Goes on as if `entry-point` stood there."""
        self.place = 1
        self.tell_of(self.tokens[1], f"{self.shown(self.tokens[1])} stands where `entry-point` or a name is expected",
                     instead_of("item", self.tokens, 1))
        del self.tokens[1]
        for kind, value in (("word", "point"), ("mark", "-"), ("word", "entry")):
            self.make_up(kind, value)
        self.place = 0

    def declaration(self) -> TypeDeclaration:
        found = self.labelled("declaration", super().declaration)
        whole = TypeDeclaration(found.name, self.kept(found.annotations),
                                tuple(f for f in found.fields if f is not NO_FIELD), found.parent)
        return self.same_place(found, whole)

    def entry_point(self) -> EntryDeclaration:
        return self.labelled("annotation", super().entry_point)

    def same_place(self, old: object, new: T) -> T:
        self.nodes.append(new)
        self.read.places[id(new)] = self.read.tokens_of(old)
        return new

    def annotation(self) -> Any:
        start = self.place
        found = self.attempt("annotation", super().annotation)
        if found is None:
            self.skip_through_parentheses(start)
            return self.nothing_of(Role(False))
        return found

    def field(self) -> tuple[str, str]:
        start = self.place
        found = self.attempt("field", super().field)
        if found is not None:
            return found
        if self.skip_mark("@"):
            self.annotation()
            return NO_FIELD
        self.forget(start)
        if self.place == start and not self.is_token(self.place, "end"):
            self.skip()
        self.skip_while(0, lambda k: self.is_token(k, "@") or self.is_name(k) and self.is_token(k + 1, ":"))
        return NO_FIELD

    def rule(self) -> Rule:
        found = super().rule()
        return Rule(found.name, self.kept(found.attributes), self.kept_conditions(found.conditions),
                    self.kept(found.actions))

    def attribute(self) -> Any:
        found = self.attempt("attribute", super().attribute)
        if found is not None:
            return found
        begins = self.begins_condition(self.place) or self.is_kind(self.place, "var")
        if begins and not self.has_when or self.is_token(self.place, "then", "end"):
            self.make_up("word", "when")
        else:
            self.skip()
            self.skip_while(0, self.begins_attribute)
        return self.nothing_of(DialectAttribute(""))

    def begins_attribute(self, k: int) -> bool:
        """Whether reading may go on here behind an attribute that is none."""
        return self.is_token(k, *ATTRIBUTES) or not self.has_when and self.begins_condition(k)

    @cached_property
    def has_when(self) -> bool:
        """Whether a `when` ends the attributes, which therefore go on up to there."""
        ends = (k for k in range(len(self.tokens)) if self.is_token(k, "when", "then"))
        return self.is_token(next(ends, -1), "when")

    # ---- conditions

    def condition(self, depth: int = 0) -> Any:
        while (self.is_token(self.place, "&&", "||", ",", ";", ".", "and")
               or self.is_token(self.place, "or") and (depth or not self.is_token(self.place + 1, "("))
               or self.is_token(self.place, "or") and self.is_token(self.place - 1, ")")):
            self.tell("condition", self.place)
            self.skip()
        start = self.place
        if (self.is_token(start, "then") and start and not self.is_token(start - 1, "when") or depth
            and self.ends_choice()):
            return self.no_condition()
        found = self.attempt("condition", lambda: super(TolerantReader, self).condition(depth))
        if found is not None:
            return found
        if self.place == start and self.begins_action(start) or self.is_token(self.place, "end"):
            self.make_up("word", "then")
        if not self.is_token(self.place, "then"):
            self.go_on_with_conditions(start, depth)
        if not self.is_token(self.place, "then", "end") and not (depth and self.ends_choice()):
            return self.condition(depth)
        if self.is_token(self.place, "end"):
            self.make_up("word", "then")
        return self.no_condition()

    def no_condition(self) -> Plain:
        return self.nothing_of(Plain(Source(None, "", (), None, None)))

    def ends_choice(self) -> bool:
        return self.peek() is None or self.is_token(self.place, "or", ")", "then", "end")

    def alternatives(self, depth: int) -> Alternatives:
        """One alternative alone, and a parenthesis that is missing, are told, and reading goes on."""
        if depth > NESTED_ALTERNATIVES:
            self.failed_in = "alternatives"
            raise OutsideGrammar("alternatives too deep")
        self.mark("(")
        choices = [self.choice(depth)]
        while self.is_token(self.place, "or"):
            self.word("or")
            choices.append(self.choice(depth))
        self.asked, self.asked_at = [], self.place
        self.failed_in = "alternatives"
        if not self.is_token(self.place, ")"):
            self.ask("`or`")
            self.ask("`)`")
            self.tell("alternatives")
            self.make_up("mark", ")")
        elif len(choices) == 1:
            self.ask("`or`")
            self.tell("alternatives")
        self.mark(")")
        return Alternatives(tuple(choices))

    def choice(self, depth: int) -> tuple[Condition, ...]:
        """At least one condition; what stands in the place of the first is told."""
        if self.is_token(self.place, ")", "then", "end"):
            self.failed_in = None
            self.ask("a condition")
            self.tell("condition")
            return ()
        conditions = [self.condition(depth)]
        while not self.ends_choice():
            conditions.append(self.condition(depth))
        return tuple(conditions)

    def go_on_with_conditions(self, start: int, nested: int) -> None:
        """Skips to where the next condition may begin, or to the end of the alternative."""
        self.forget(start)
        if self.place == start:
            self.skip()
        depth = self.depth_since(start)
        self.skip_while(depth, lambda k: self.begins_condition(k) or self.begins_action(k) or nested > 0
                        and self.is_token(k, "or", ")"))
        if self.begins_action(self.place):
            self.tell("condition", self.place)
            self.make_up("word", "then")

    def group(self) -> Source:
        """A parenthesis that is missing is made up; its place is told."""
        opened = self.is_token(self.place, "(")
        if not opened:
            return super().group()
        self.mark("(")
        source = self.source()
        if not self.is_token(self.place, ")"):
            self.at_mark(")")
            self.failed_in = "group"
            self.tell("group")
            if self.is_token(self.place, "then", "end") or self.begins_condition(self.place):
                self.close_group()
            else:
                self.skip_to(")")
        self.mark(")")
        return source

    def close_group(self) -> None:
        """Where a second pattern stands in the group, it runs to the parenthesis behind that; else the parenthesis is
        missing."""
        place, unclear = self.place, set(self.read.unclear)
        self.skip_while(0, lambda k: self.is_token(k, ")"))
        if not self.is_token(self.place, ")"):
            self.place, self.read.unclear = place, unclear
            self.make_up("mark", ")")

    def source(self) -> Source:
        return self.noted(super().source)

    def window(self) -> Any:
        start = self.place
        found = self.attempt("window", super().window)
        if found is None:
            self.skip_through_parentheses(start)
        return found

    def place_name(self) -> Optional[str]:
        start = self.place
        found = self.attempt("entry", super().place_name)
        if found is None:
            if self.is_kind(self.place + 1, "text"):
                self.skip()
            name = (self.is_kind(self.place, "text") or self.is_name(self.place)
                    and not self.begins_condition(self.place))
            if name:
                found = str(self.tokens[self.place].value)
                self.skip()
            else:
                self.skip_through_parentheses(start)
        if self.is_token(self.place, "over"):
            self.ask("nothing more")
            self.failed_in = None
            self.tell("behind entry")
            self.window()
        return found

    def part(self) -> Any:
        found = self.attempt("part", super().part)
        if found is None:
            self.skip_values()
            self.skip_to(",", ")")
            return NO_PART
        if not (self.at_mark(",") or self.at_mark(")")):
            self.failed_in = None
            self.go_on_behind_part()
        return found

    def go_on_behind_part(self) -> None:
        """A mark is missing where what follows begins something else."""
        if self.begins_part(self.place):
            self.tell("part", instead="`,` between parts")
            self.make_up("mark", ",")
        elif self.begins_condition(self.place) or self.is_token(self.place, "over", "from", "then", "end", ";"):
            self.tell("part", instead="`)` is missing")
            self.make_up("mark", ")")
        else:
            self.tell("part")
            self.skip_to(",", ")")

    def skip_values(self) -> None:
        """A list of values behind `in`, without parentheses."""
        if self.is_token(self.place - 1, "in"):
            while (any(self.is_kind(self.place + 2, kind) for kind in ("text", "number"))
                   and self.is_token(self.place + 1, ",")):
                self.place += 2

    def comparison(self) -> Any:
        return self.noted(super().comparison)

    def operand(self) -> Any:
        return self.noted(super().operand)

    def leaf(self) -> Any:
        return self.noted(super().leaf)

    def accumulate(self) -> Any:
        return self.labelled("accumulate", super().accumulate)

    def number_from_accumulate(self) -> Any:
        return self.labelled("accumulate", super().number_from_accumulate)

    def function(self) -> tuple[str, str]:
        return self.labelled("function", super().function)

    def value_test(self) -> Any:
        return self.labelled("value", super().value_test)

    def result_test(self, result: str) -> Any:
        if self.is_kind(self.place, "var") and self.tokens[self.place].value != result:
            self.failed_in = "result"
            self.ask(f"`${result}`")
            raise OutsideGrammar("result")
        return self.labelled("result", lambda: super(TolerantReader, self).result_test(result))

    # ---- actions

    def action(self) -> Any:
        start = self.place
        found = self.attempt("action", super().action)
        if found is None:
            self.go_on_with_actions(start)
            return self.nothing_of(Insert("", ()))
        if isinstance(found, Modify):
            return self.same_place(found,
                                   Modify(found.variable, tuple(s for s in found.sets if s is not NO_ASSIGNMENT)))
        return found

    def go_on_with_actions(self, start: int) -> None:
        """Skips behind the next `;`, or to where the next action begins. Types that are made there are noted."""
        self.forget(start)
        depth = self.depth_since(start)
        if self.place == start and not self.is_token(start, "end"):
            self.skip()
        self.skip_while(depth, lambda k: self.is_token(k, ";") or self.begins_action(k))
        self.skip_mark(";")
        for k in range(start, self.place):
            if self.is_token(k, "new") and self.is_name(k + 1) and self.is_token(k + 2, "("):
                self.read.new_types.append(self.tokens[k + 1])

    def assignment(self) -> Any:
        found = self.attempt("assignment", self.plain_assignment)
        if found is None:
            self.skip_to(",", "}")
            return NO_ASSIGNMENT
        if not (self.at_mark(",") or self.at_mark("}")):
            self.failed_in = None
            self.tell("assignment")
            if self.is_token(self.place, ";"):
                self.place += 1
                if not self.is_token(self.place, "}"):
                    self.make_up("mark", ",")
            else:
                self.skip_to(",", "}")
        return found

    def plain_assignment(self) -> Any:
        if self.is_name(self.place) and self.is_token(self.place + 1, "("):
            try:
                field_of_setter(str(self.tokens[self.place].value))
            except OutsideGrammar:
                self.ask("a setter, as `setPrice`")
                raise
        return super().assignment()

    def expression(self) -> Any:
        found = self.attempt("expression", super().expression)
        if found is None:
            self.skip_to(",", ")", "}", ";")
            return self.nothing_of(Literal(0))
        if not self.is_token(self.place, ",", ")", "}", ";", "end"):
            self.failed_in = None
            self.tell("expression")
            self.skip_to(",", ")", "}", ";")
        return found

    # ---- the whole

    def whole(self) -> ReadItem:
        """The item as far as it can be read."""
        self.read.tokens = self.tokens
        try:
            self.read.body = self.attempt("item", self.item)
        except OutsideGrammar:
            if not self.made_up:
                last = self.tokens[-1]
                self.tell_of(last, f"the item ends after {self.shown(last)}, where {self.expected()} is expected")
        return self.read


# ---- tokens


@dataclass(frozen=True)
class Patch:
    """Bytes that were no token, from `start` up to `end`, were read as something else."""
    start: int
    end: int
    to_line_end: bool


BYTES = {0xA0: "a space that does not break", 0xFEFF: "a byte order mark", 0x2028: "a line separator"}
USUAL = {"“": '`"`', "”": '`"`', "‘": "`'`", "’": "`'`", "–": "`-`", "—": "`-`", "≥": "`>=`", "≤": "`<=`", "≠": "`!=`",
         "!": "`open == false`", "&": "`&&`", "|": "`||`", "/": "there is no division", "%": "there is no remainder",
         "?": "there is no choice", "\ufeff": "save the file as UTF-8 without it", "\u00a0": "a plain space",
         "$": "a variable has a name after the `$`", "`": "`\"`"}


def character_at(data: bytes, at: int) -> str:
    """The character that begins at an offset, as far as it is UTF-8."""
    for length in (1, 2, 3, 4):
        try:
            return data[at:at + length].decode("utf-8")
        except UnicodeDecodeError:
            continue
    return ""


def lexical_complaint(data: bytes, fault: LexicalFault) -> Complaint:
    """What the bytes are that begin no token."""
    at, code, run = fault.at, fault.code, RUN.match(data, fault.at)
    if code == "OpenText":
        return Complaint(at, code, "the text that begins here is not closed in its line",
                         'a `"` after it; a newline in it is `\\n`')
    if code == "OpenComment":
        return Complaint(at, code, "the comment that begins here is not closed", "`*/` after it")
    if code == "NumberLarge":
        return Complaint(at, code,
                         f"`{run.group().decode() if run else ''}` is above 2^63 - 1, or as a time above 2^53 ms")
    if run:
        units = "digits alone; a time is as `1h30m`, `10s`, `500ms`: small units, the greatest first"
        return Complaint(at, code, f"`{run.group().decode()}` is no number and no time", units)
    if data[at:at + 1] == b"\\":
        return Complaint(at, code, "this escape is none",
                         '`\\\\` for a backslash; the others are `\\"`, `\\\'`, `\\n`, `\\t`, `\\r`')
    if data[at:at + 1] in (b'"', b"'"):
        return Complaint(at, code, "the text that begins here is not UTF-8", "save the file as UTF-8")
    if is_html_comment(data, at):
        return Complaint(at, code, "`!` begins no token",
                         "a comment is `// ..`, up to the end of its line, or `/* .. */`")
    character = character_at(data, at)
    name = BYTES.get(ord(character)) if character else f"the byte {data[at]}"
    return Complaint(at, code, f"{name or f'`{character}`'} begins no token", USUAL.get(character, ""))


def is_html_comment(data: bytes, at: int) -> bool:
    """Whether a comment of HTML begins before the `!` that stands here."""
    return data[max(0, at - 1):at + 3] == b"<!--"


def patch_of(data: bytes, fault: LexicalFault) -> tuple[Patch, bytes]:
    """Which bytes are to be read as others, and as which: as many."""
    at, run = fault.at, RUN.match(data, fault.at)
    line_end = data.find(b"\n", at)
    line_end = len(data) if line_end < 0 else line_end
    if fault.code == "OpenComment":
        return Patch(at, len(data), True), re.sub(rb"[^\n]", b" ", data[at:])
    if is_html_comment(data, at):
        close = data.find(b"-->", at)
        end = line_end if close < 0 else close + 3
        return Patch(at - 1, end, False), re.sub(rb"[^\n]", b" ", data[at - 1:end])
    if fault.code == "OpenText" or fault.code == "BadChar" and data[at:at + 1] in (b'"', b"'"):
        return (Patch(at, line_end, True), (b'""' + b" " * (line_end - at))[:line_end - at] if line_end - at > 1
                else b" ")
    if data[at:at + 1] == b"\\":
        return Patch(at, at + 2, False), b"\\\\" if at + 1 < line_end else b" " * 2
    if run:
        text = run.group().decode()
        unit = next((u for u in UNITS if re.search(f"[0-9]{u}[a-z]*$", text)), "")
        return Patch(at, run.end(), False), b"1".rjust(len(text) - len(unit), b"0") + unit.encode()
    length = len(character_at(data, at).encode()) or 1
    return Patch(at, at + length, False), b" " * length


def tolerant_tokens(data: bytes) -> tuple[list[Token], list[Complaint], list[Patch]]:
    """All tokens, with what stands between them that is none."""
    complaints: list[Complaint] = []
    patches: list[Patch] = []
    while True:
        try:
            return tokens_of(data), complaints, patches
        except LexicalFault as fault:
            complaints.append(lexical_complaint(data, fault))
            patch, bytes_instead = patch_of(data, fault)
            patches.append(patch)
            data = data[:patch.start] + bytes_instead + data[patch.end:]
            if len(complaints) >= MOST_FAULTS:
                return [], complaints, patches


# ---- the file


def parts_of_file(tokens: list[Token]) -> list[list[Token]]:
    """The tokens of each item. An item that lacks its `end` ends where the next one begins, at a word that only begins
    items."""
    parts = []
    for part in items_of_tokens(tokens):
        starts = [0] + [k for k, token in enumerate(part) if k and token.kind == "word" and token.value in FIRST_WORDS
                        - {"dialect"}]
        parts += [part[a:b] for a, b in zip(starts, starts[1:] + [len(part)])]
    return parts


def is_patched(data: bytes, at: int, patches: list[Patch]) -> bool:
    """Whether what stands here was patched, or follows a patch in its line, or the name behind a `!`."""
    def follows(patch: Patch) -> bool:
        between = data[patch.end:at].strip()
        denied = data[patch.start:patch.end] == b"!" and re.fullmatch(rb"\w+", between) is not None
        return not between or denied or patch.to_line_end and b"\n" not in data[patch.end:at].strip(b"\n")

    return any(patch.start <= at and follows(patch) for patch in patches)


def read_item(part: list[Token], shown: Callable[[Token], str]) -> ReadItem:
    """An item, with an `end` where it lacks one."""
    reader, lacks_end = TolerantReader(part, shown), False
    if part[0].kind == "word" and part[0].value in ("declare", "rule"):
        lacks_end = not (part[-1].kind == "word" and part[-1].value == "end")
    if lacks_end:
        end = Token("word", "end", part[-1].at)
        reader.tokens.append(end)
        reader.made_up.append(end)
    read = reader.whole()
    if lacks_end:
        read.complaints.append(Complaint(part[-1].at, "Syntax", f"`end` is missing after {shown(part[-1])}"))
    return read


def read_tolerantly(data: bytes) -> tuple[list[ReadItem], list[Complaint]]:
    """All items as far as they can be read, and what is none of the grammar."""
    tokens, complaints, patches = tolerant_tokens(data)

    def shown(token: Token) -> str:
        text = {"var": f"${token.value}", "text": f'"{token.value}"'}.get(token.kind, str(token.value))
        if token.kind == "time":
            text = data[token.at:].split(None, 1)[0].decode("utf-8", "replace").rstrip(")],;")
        return f"`{text}`"

    items = [read_item(part, shown) for part in parts_of_file(tokens)]
    for item in items:
        item.complaints = [c for c in item.complaints if not is_patched(data, c.at, patches)]
        if any(p.to_line_end and item.tokens[0].at <= p.start <= item.tokens[-1].at or p.end == len(data)
               and item is items[-1] for p in patches):
            item.complaints, item.body = [], None
    return items, complaints + [c for item in items for c in item.complaints]
