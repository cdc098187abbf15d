"""From the bytes of a rule file to its items, or the first refusal and its place.

The order of refusals: a file of more than 1,048,576 bytes (TooLong, item 0 line 0); the first lexical fault (item 0,
its line); the first item that is none of the grammar (Syntax, its number, the line of its first token). Each method of
`Reader` is one line of the grammar, which stands above it.
"""

from __future__ import annotations

from typing import Any, Callable, Optional, TypeVar, Union

from . import temporal
from .tokens import LexicalFault, Token, line_of, tokens_of
from .trees import (Action, Alternatives, Annotation, AnyOf, Attribute, Binary, Bind, Body, Compare, Comparison,
                    Dialect, DialectAttribute, Duration, EntryDeclaration, Existing, Expires, Expr, FieldOf, Folded,
                    Import, Insert, Item, LengthWindow, Literal, Modify, Negate, Negated, OneOf, Operand, Own, Package,
                    Part, Plain, Reference, Retract, Role, Rule, Salience, Source, Temporal, Timestamp, TimeWindow,
                    TypeDeclaration, Variable, Window, WrittenCondition)

FILE_END = 1_048_576
TREE_HEIGHT = 32
PARENTHESES = 32
NESTED_ALTERNATIVES = 16

RESERVED = set("package import dialect declare rule when then end salience not exists accumulate from over in this "
               "new insert modify retract true false Number or extends".split())
FIRST_WORDS = {"package", "import", "dialect", "declare", "rule"}
RELATIONS = {"==", "!=", "<", "<=", ">", ">="}
FUNCTIONS = {"count", "sum", "min", "max", "average"}

T = TypeVar("T")


class Refused(Exception):
    """`refused item <item> line <line> <code>`."""

    def __init__(self, item: int, line: int, code: str):
        super().__init__(item, line, code)
        self.item, self.line, self.code = item, line, code


class OutsideGrammar(Exception):
    """The tokens of an item are none of the grammar."""


def is_ident(word: str) -> bool:
    """A word that is not reserved (the word's form is the lexer's)."""
    return word not in RESERVED


class Reader:
    """Reads the tokens of one item from left to right, by the grammar."""

    def __init__(self, tokens: list[Token]):
        self.tokens = tokens
        self.place = 0

    # ---- single tokens

    def peek(self, ahead: int = 0) -> Optional[Token]:
        k = self.place + ahead
        return self.tokens[k] if k < len(self.tokens) else None

    def at_mark(self, mark: str, ahead: int = 0) -> bool:
        token = self.peek(ahead)
        return token is not None and token.kind == "mark" and token.value == mark

    def at_word(self, word: str, ahead: int = 0) -> bool:
        token = self.peek(ahead)
        return token is not None and token.kind == "word" and token.value == word

    def at_kind(self, kind: str, ahead: int = 0) -> bool:
        token = self.peek(ahead)
        return token is not None and token.kind == kind

    def take(self, kind: str) -> Any:
        token = self.peek()
        if token is None or token.kind != kind:
            raise OutsideGrammar(kind)
        self.place += 1
        return token.value

    def mark(self, mark: str) -> None:
        if not self.at_mark(mark):
            raise OutsideGrammar(mark)
        self.place += 1

    def word(self, word: str) -> None:
        if not self.at_word(word):
            raise OutsideGrammar(word)
        self.place += 1

    def skip_mark(self, mark: str) -> bool:
        if self.at_mark(mark):
            self.place += 1
            return True
        return False

    def at_ident(self, ahead: int = 0) -> bool:
        token = self.peek(ahead)
        return token is not None and token.kind == "word" and is_ident(str(token.value))

    def ident(self) -> str:
        if not self.at_ident():
            raise OutsideGrammar("name")
        return self.take("word")

    def one_word(self, words: set[str]) -> str:
        word = self.take("word")
        if word not in words:
            raise OutsideGrammar(word)
        return word

    def list_of(self, read: Callable[[], T], mark: str = ",") -> tuple[T, ...]:
        """read (mark read)*"""
        found = [read()]
        while self.skip_mark(mark):
            found.append(read())
        return tuple(found)

    def list_up_to(self, close: str, read: Callable[[], T]) -> tuple[T, ...]:
        """[read (',' read)*] close"""
        found = () if self.at_mark(close) else self.list_of(read)
        self.mark(close)
        return found

    # ---- items

    def item(self) -> Body:
        """One item, which all the tokens are."""
        word = self.take("word")
        if word == "package":
            body: Body = Package(self.list_of(self.ident, "."))
            self.skip_mark(";")
        elif word == "import":
            body = self.import_item()
        elif word == "dialect":
            body = Dialect(self.take("text"))
            self.skip_mark(";")
        elif word == "declare":
            # No type has a minus behind its name.
            body = self.entry_point() if self.at_word("entry") and self.at_mark("-", 1) else self.declaration()
        elif word == "rule":
            body = self.rule()
        else:
            raise OutsideGrammar(word)
        if self.peek() is not None:
            raise OutsideGrammar("more")
        return body

    def import_item(self) -> Import:
        """'import' Ident ('.' Ident)* ['.' '*'] [';']"""
        path, star = [self.ident()], False
        while not star and self.skip_mark("."):
            if self.skip_mark("*"):
                star = True
            else:
                path.append(self.ident())
        self.skip_mark(";")
        return Import(tuple(path), star)

    def declaration(self) -> TypeDeclaration:
        """'declare' Ident ['extends' Ident] meta* field* 'end'"""
        name, parent, annotations = self.ident(), None, []
        if self.at_word("extends"):
            self.word("extends")
            parent = self.ident()
        while self.skip_mark("@"):
            annotations.append(self.annotation())
        fields = []
        while not self.at_word("end"):
            fields.append(self.field())
        self.word("end")
        return TypeDeclaration(name, tuple(annotations), tuple(fields), parent)

    def field(self) -> tuple[str, str]:
        """Ident ':' Ident"""
        name = self.ident()
        self.mark(":")
        return name, self.ident()

    def annotation(self) -> Annotation:
        """'@' 'role' '(' ('event' | 'fact') ')' | '@' ('timestamp' | 'duration') '(' Ident ')' | '@' 'expires' '(' span
        ')' | '@' 'reference'"""
        word = self.one_word({"role", "timestamp", "duration", "expires", "reference"})
        if word == "reference":
            return Reference()
        self.mark("(")
        if word == "role":
            found: Annotation = Role(self.one_word({"event", "fact"}) == "event")
        elif word == "timestamp":
            found = Timestamp(self.ident())
        elif word == "duration":
            found = Duration(self.ident())
        else:
            found = Expires(self.span())
        self.mark(")")
        return found

    def name(self) -> str:
        """Text | Ident"""
        return self.take("text") if self.at_kind("text") else self.ident()

    def span(self) -> int:
        """['-'] (Number | Time)"""
        sign = -1 if self.skip_mark("-") else 1
        return sign * self.take("time" if self.at_kind("time") else "number")

    def entry_point(self) -> EntryDeclaration:
        """'declare' 'entry' '-' 'point' name ['@' 'lateness' '(' span ')'] 'end'"""
        self.word("entry")
        self.mark("-")
        self.word("point")
        name, lateness = self.name(), None
        if self.skip_mark("@"):
            self.word("lateness")
            self.mark("(")
            lateness = self.span()
            self.mark(")")
        self.word("end")
        return EntryDeclaration(name, lateness)

    def rule(self) -> Rule:
        """'rule' name attr* 'when' condition+ 'then' action* 'end'"""
        name = self.name()
        attributes = []
        while not self.at_word("when"):
            attributes.append(self.attribute())
        self.word("when")
        conditions: list[Any] = [self.condition()]
        while not self.at_word("then"):
            conditions.append(self.condition())
        self.word("then")
        actions = []
        while not self.at_word("end"):
            actions.append(self.action())
        self.word("end")
        return Rule(name, tuple(attributes), tuple(conditions), tuple(actions))

    def attribute(self) -> Attribute:
        """'salience' ['-'] Number [','] | 'dialect' Text [',']"""
        if self.one_word({"salience", "dialect"}) == "salience":
            sign = -1 if self.skip_mark("-") else 1
            found: Attribute = Salience(sign * self.take("number"))
        else:
            found = DialectAttribute(self.take("text"))
        self.skip_mark(",")
        return found

    # ---- conditions

    def condition(self, depth: int = 0) -> WrittenCondition:
        """source | ('not' | 'exists') group | folded | alternatives, within so many of these"""
        if self.at_mark("("):
            return self.alternatives(depth + 1)
        if self.at_word("not"):
            self.word("not")
            return Negated(self.group())
        if self.at_word("exists"):
            self.word("exists")
            return Existing(self.group())
        if self.at_word("accumulate"):
            return self.accumulate()
        if self.at_word("Number", 2 if self.at_kind("var") and self.at_mark(":", 1) else 0):
            return self.number_from_accumulate()
        return Plain(self.source())

    def alternatives(self, depth: int) -> Alternatives:
        """'(' condition+ ('or' condition+)+ ')', at most 16 deep"""
        if depth > NESTED_ALTERNATIVES:
            raise OutsideGrammar("alternatives too deep")
        self.mark("(")
        choices = [self.choice(depth)]
        while not choices[1:] or self.at_word("or"):
            self.word("or")
            choices.append(self.choice(depth))
        self.mark(")")
        return Alternatives(tuple(choices))

    def choice(self, depth: int) -> tuple[WrittenCondition, ...]:
        """condition+"""
        conditions = [self.condition(depth)]
        while not self.at_word("or") and not self.at_mark(")"):
            conditions.append(self.condition(depth))
        return tuple(conditions)

    def group(self) -> Source:
        """'(' source ')' | source"""
        if self.skip_mark("("):
            source = self.source()
            self.mark(")")
            return source
        return self.source()

    def bound_variable(self) -> Optional[str]:
        """[Var ':']"""
        if not self.at_kind("var"):
            return None
        variable = self.take("var")
        self.mark(":")
        return variable

    def source(self) -> Source:
        """[Var ':'] Ident '(' [part (',' part)*] ')' [window] [place]"""
        variable, type_name = self.bound_variable(), self.ident()
        self.mark("(")
        parts = self.list_up_to(")", self.part)
        window = self.window() if self.at_word("over") else None
        entry = self.place_name() if self.at_word("from") else None
        return Source(variable, type_name, parts, window, entry)

    def window(self) -> Window:
        """'over' 'window' ':' ('time' '(' span ')' | 'length' '(' Number ')')"""
        self.word("over")
        self.word("window")
        self.mark(":")
        word = self.one_word({"time", "length"})
        self.mark("(")
        found: Window = TimeWindow(self.span()) if word == "time" else LengthWindow(self.take("number"))
        self.mark(")")
        return found

    def place_name(self) -> Optional[str]:
        """'from' 'entry' '-' 'point' name"""
        self.word("from")
        self.word("entry")
        self.mark("-")
        self.word("point")
        return self.name()

    def part(self) -> Part:
        """Var ':' Ident | temporal | disj"""
        if self.at_kind("var"):
            variable = self.take("var")
            self.mark(":")
            return Bind(variable, self.ident())
        if self.at_word("this"):
            return self.temporal_test()
        return AnyOf(self.list_of(lambda: self.list_of(self.comparison, "&&"), "||"))

    def temporal_test(self) -> Temporal:
        """'this' OpWord ['[' span (',' span)* ']'] Var"""
        self.word("this")
        operator = self.one_word(set(temporal.OPERATORS))
        parameters: tuple[int, ...] = ()
        if self.skip_mark("["):
            parameters = self.list_of(self.span)
            self.mark("]")
        return Temporal(operator, parameters, self.take("var"))

    def comparison(self) -> Comparison:
        """Ident rel operand | Ident 'in' '(' operand (',' operand)* ')'"""
        field = self.ident()
        if self.at_word("in"):
            self.word("in")
            self.mark("(")
            operands = self.list_of(self.operand)
            self.mark(")")
            return OneOf(field, operands)
        return Compare(field, self.relation(), self.operand())

    def relation(self) -> str:
        """'==' | '!=' | '<' | '<=' | '>' | '>='"""
        mark = self.take("mark")
        if mark not in RELATIONS:
            raise OutsideGrammar(mark)
        return mark

    def operand(self) -> Operand:
        """literal | Var | Var '.' Ident | Ident, where literal is ['-'] Number | Text | 'true' | 'false'"""
        if self.skip_mark("-"):
            return Literal(-self.take("number"))
        if self.at_ident():
            return Own(self.ident())
        leaf = self.leaf()
        if leaf is None:
            raise OutsideGrammar("operand")
        return leaf

    def leaf(self) -> Optional[Union[Literal, Variable, FieldOf]]:
        """Number | Text | 'true' | 'false' | Var | Var '.' Ident"""
        if self.at_kind("number"):
            return Literal(self.take("number"))
        if self.at_kind("text"):
            return Literal(self.take("text"))
        if self.at_word("true") or self.at_word("false"):
            return Literal(self.take("word") == "true")
        if self.at_kind("var"):
            variable = self.take("var")
            return FieldOf(variable, self.ident()) if self.skip_mark(".") else Variable(variable)
        return None

    def number_from_accumulate(self) -> Folded:
        """[Var ':'] 'Number' '(' [vtest (',' vtest)*] ')' 'from' 'accumulate' '(' source ',' function '(' Var ')'
        ')'"""
        result = self.bound_variable()
        self.word("Number")
        self.mark("(")
        tests = self.list_up_to(")", self.value_test)
        self.word("from")
        self.word("accumulate")
        self.mark("(")
        source = self.source()
        self.mark(",")
        function, argument = self.function()
        self.mark(")")
        return Folded(result, source, function, argument, tests)

    def accumulate(self) -> Folded:
        """'accumulate' '(' source ';' Var ':' function '(' Var ')' [';' rtest (',' rtest)*] ')'"""
        self.word("accumulate")
        self.mark("(")
        source = self.source()
        self.mark(";")
        result = self.take("var")
        self.mark(":")
        function, argument = self.function()
        tests: tuple[tuple[str, Operand], ...] = ()
        if self.skip_mark(";"):
            tests = self.list_of(lambda: self.result_test(result))
        self.mark(")")
        return Folded(result, source, function, argument, tests)

    def function(self) -> tuple[str, str]:
        """function '(' Var ')'"""
        function = self.one_word(FUNCTIONS)
        self.mark("(")
        argument = self.take("var")
        self.mark(")")
        return function, argument

    def value_test(self) -> tuple[str, Operand]:
        """('longValue' | 'intValue') rel operand"""
        self.one_word({"longValue", "intValue"})
        return self.relation(), self.operand()

    def result_test(self, result: str) -> tuple[str, Operand]:
        """Var rel operand, where the Var is the one bound to the result"""
        if self.take("var") != result:
            raise OutsideGrammar("another variable than the result's")
        return self.relation(), self.operand()

    # ---- actions

    def action(self) -> Action:
        """( 'insert' .. | 'modify' .. | 'retract' .. ) [';']"""
        word = self.one_word({"insert", "modify", "retract"})
        self.mark("(")
        if word == "insert":
            self.word("new")
            type_name = self.ident()
            self.mark("(")
            found: Action = Insert(type_name, self.list_up_to(")", self.expression))
            self.mark(")")
        elif word == "modify":
            variable = self.take("var")
            self.mark(")")
            self.mark("{")
            found = Modify(variable, self.list_of(self.assignment))
            self.mark("}")
        else:
            found = Retract(self.take("var"))
            self.mark(")")
        self.skip_mark(";")
        return found

    def assignment(self) -> tuple[str, Expr]:
        """Ident '=' expr | Ident '(' expr ')', where this Ident is `set` and a field's name"""
        word = self.ident()
        if self.skip_mark("="):
            return word, self.expression()
        self.mark("(")
        value = self.expression()
        self.mark(")")
        return field_of_setter(word), value

    def expression(self) -> Expr:
        """expr, with a tree at most 32 high and parentheses at most 32 deep"""
        expr, height = self.sum(0)
        if height > TREE_HEIGHT:
            raise OutsideGrammar("tree too high")
        return expr

    # A nested expression answers its tree and the tree's height. What is higher than 32 in a part is so in the whole,
    # so a chain of minus signs or of operators stops there.

    def sum(self, depth: int) -> tuple[Expr, int]:
        """term (('+' | '-') term)*"""
        return self.chain({"+", "-"}, lambda: self.product(depth))

    def product(self, depth: int) -> tuple[Expr, int]:
        """factor ('*' factor)*"""
        return self.chain({"*"}, lambda: self.factor(depth))

    def chain(self, signs: set[str], read: Callable[[], tuple[Expr, int]]) -> tuple[Expr, int]:
        """Operators of one strength group to the left."""
        left, height = read()
        while self.at_kind("mark") and (token := self.peek()) is not None and token.value in signs:
            sign = self.take("mark")
            right, other = read()
            left, height = Binary(sign, left, right), 1 + max(height, other)
            if height > TREE_HEIGHT:
                raise OutsideGrammar("tree too high")
        return left, height

    def factor(self, depth: int) -> tuple[Expr, int]:
        """'-' factor | '(' expr ')' | leaf"""
        minuses = 0
        while self.skip_mark("-"):
            minuses += 1
        if minuses >= TREE_HEIGHT:
            raise OutsideGrammar("tree too high")
        if self.skip_mark("("):
            if depth == PARENTHESES:
                raise OutsideGrammar("parentheses too deep")
            expr, height = self.sum(depth + 1)
            self.mark(")")
        else:
            leaf, height = self.leaf(), 1
            if leaf is None:
                raise OutsideGrammar("operand")
            expr = leaf
        for _ in range(minuses):
            expr = Negate(expr)
        return expr, height + minuses


def field_of_setter(word: str) -> str:
    """The field that `setPrice` names: what stands behind `set`, its first letter made small; it must be a name
    itself."""
    if not word.startswith("set") or len(word) == 3:
        raise OutsideGrammar("no setter")
    field = word[3].lower() + word[4:]
    if field[0] in "0123456789" or not is_ident(field):
        raise OutsideGrammar("no name behind set")
    return field


def items_of_tokens(tokens: list[Token]) -> list[list[Token]]:
    """`declare` and `rule` run through the next word `end`; any other item up to the next word that begins an item."""
    items: list[list[Token]] = []
    k = 0
    while k < len(tokens):
        first = tokens[k]
        end = k + 1
        if first.kind == "word" and first.value in ("declare", "rule"):
            while end < len(tokens) and not (tokens[end].kind == "word" and tokens[end].value == "end"):
                end += 1
            end = min(end + 1, len(tokens))
        else:
            while end < len(tokens) and not (tokens[end].kind == "word" and tokens[end].value in FIRST_WORDS):
                end += 1
        items.append(tokens[k:end])
        k = end
    return items


def read_file(data: bytes) -> list[Item]:
    """The items of a rule file by the grammar, or Refused."""
    if len(data) > FILE_END:
        raise Refused(0, 0, "TooLong")
    try:
        tokens = tokens_of(data)
    except LexicalFault as fault:
        raise Refused(0, line_of(data, fault.at), fault.code) from None
    items = []
    for number, part in enumerate(items_of_tokens(tokens), start=1):
        line = line_of(data, part[0].at)
        try:
            items.append(Item(line, Reader(part).item()))
        except OutsideGrammar:
            raise Refused(number, line, "Syntax") from None
    return items
